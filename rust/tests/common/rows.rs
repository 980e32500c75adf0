//! Lines that `lapyndo` prints.

/// What follows a label on its line.
pub fn row<'t>(text: &'t str, label: &str) -> Option<&'t str> {
    let label = format!("{label:10}");
    text.lines().find_map(|line| line.strip_prefix(&label))
}

/// The numbers and the text of lines such as `  a12  byte 40: needs p0`, parted by a word.
pub fn rows<'t>(text: &'t str, part: &'t str) -> impl Iterator<Item = (usize, &'t str)> {
    let lines = text.lines().filter_map(|line| line.strip_prefix("  a"));
    lines.filter_map(move |line| {
        let (number, said) = line.split_once(part)?;
        Some((number.trim_end().parse().expect("a number"), said))
    })
}
