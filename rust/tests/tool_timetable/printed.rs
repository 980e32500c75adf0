//! What is printed of generated campaigns and closures, damaged ones among them, put to the proved
//! engine.

use super::{minutes, miscounted, records, repeated, Night};
use crate::common::rows::row;
use crate::tool_use::complaint;
use campaign::answer::{Placed, Reason, Refusal};
use campaign::generate::{m1, many_records, task_of, Rng, Task};
use campaign::proved;
use campaign::reference::table::Kind;
use std::iter;

/// How often each outcome was met.
#[derive(Default)]
struct Seen {
    placed: usize,
    /// A window between others that holds no entry.
    skipped: usize,
    bad_windows: usize,
    bad_durations: usize,
    unplaced: usize,
    miscounted: usize,
}

/// The engine's answer, and the starts.
fn place(windows: &[u8], durations: &[u8]) -> (Result<Placed, Refusal>, Vec<u8>) {
    let mut starts = vec![0; durations.len()];
    let placed = proved::place(windows, durations, &mut starts);
    (placed, starts)
}

/// Checks all that is printed of a night whose campaign has this list.
fn check(seen: &mut Seen, night: &Night, list: &[u64]) {
    let printed = night.timetable();
    let (answer, starts) = place(&night.windows, &night.durations);
    let is_range = |refusal: Refusal| refusal.reason == Reason::ClosureRange;
    let counted = night.durations.len() / 4;
    if counted != list.len() && !answer.is_err_and(is_range) {
        let expected = miscounted(counted, list.len() as u64);
        assert_eq!(complaint(printed), expected);
        seen.miscounted += 1;
        return;
    }
    assert_eq!(printed.error, "");
    assert_eq!(
        printed.status,
        i32::from(answer.is_err()),
        "{}",
        printed.out
    );
    match answer {
        Ok(placed) => check_timetable(seen, night, list, &starts, placed.end, &printed.out),
        Err(refusal) => {
            let text = &*printed.out;
            assert!(text.starts_with(&format!("{refusal}: ")), "{text}");
            let place = refusal.place as usize;
            match is_range(refusal) {
                true => check_range(seen, night, place, text),
                false => check_no_room(seen, night, list, place, text),
            }
        }
    }
}

/// The minute of hours such as `100:05`.
fn minute(clock: &str) -> u64 {
    let (hours, minutes) = clock.split_once(':').expect("hours and minutes");
    assert!(hours.len() >= 2 && minutes.len() == 2, "{clock}");
    let [hours, minutes] = [hours, minutes].map(|part| part.parse::<u64>().expect("a number"));
    assert!(minutes < 60, "{clock}");
    60 * hours + minutes
}

/// A minute in a file.
fn minute_at(file: &[u8], number: usize) -> u64 {
    let four = file[4 * number..][..4].try_into();
    u32::from_be_bytes(four.expect("four bytes")).into()
}

/// The words of the lines under a label.
fn lines<'t>(text: &'t str, label: &str) -> Vec<Vec<&'t str>> {
    let label = format!("{label:10}");
    let lines = text.lines().skip_while(|line| !line.starts_with(&label));
    let lines = lines.skip(1).take_while(|line| line.starts_with("  "));
    lines
        .map(|line| line.split_whitespace().collect())
        .collect()
}

/// A timetable says what the files and the engine's starts say, and names windows that hold the entries.
fn check_timetable(
    seen: &mut Seen,
    night: &Night,
    list: &[u64],
    starts: &[u8],
    end: u64,
    text: &str,
) {
    let entries = lines(text, "entries");
    assert_eq!(entries.len(), list.len(), "{text}");
    let mut held = vec![Vec::new(); night.windows.len() / 8];
    for (i, (words, mv)) in entries.iter().zip(list).enumerate() {
        let [number, from, "to", to, "window", window, name, ..] = words[..] else {
            panic!("{words:?}");
        };
        assert_eq!([number, name], [&*i.to_string(), &*format!("a{mv}")]);
        let [from, to] = [from, to].map(minute);
        assert_eq!(from, minute_at(starts, i), "{text}");
        assert_eq!(to, from + minute_at(&night.durations, i), "{text}");
        let window: usize = window.parse().expect("a number");
        let [opens, shuts] = [0, 1].map(|half| minute_at(&night.windows, 2 * window + half));
        assert!(opens <= from && to <= shuts, "{text}");
        held[window].push(i);
    }
    check_windows(night, &held, text);
    let last = entries.last().map_or(0, |words| minute(words[3]));
    let said = row(text, "end").expect("an end");
    assert_eq!(
        said.split_once(", "),
        Some((&*clock(end), &*format!("minute {end}")))
    );
    assert_eq!(last, end);
    let earliest = "none of them starts earlier than here.\n";
    assert_eq!(text.contains(earliest), !list.is_empty());
    seen.placed += 1;
    let used = held.iter().rposition(|entries| !entries.is_empty());
    seen.skipped += usize::from(held[..used.unwrap_or(0)].iter().any(Vec::is_empty));
}

fn clock(minute: u64) -> String {
    format!("{:02}:{:02}", minute / 60, minute % 60)
}

/// Each window has its hours, and the entries that name it.
fn check_windows(night: &Night, held: &[Vec<usize>], text: &str) {
    let windows = lines(text, "windows");
    assert_eq!(windows.len(), held.len(), "{text}");
    for (i, (words, entries)) in windows.iter().zip(held).enumerate() {
        assert_eq!([words[0], words[2]], [&*i.to_string(), "to"]);
        let hours = [0, 1].map(|half| minute_at(&night.windows, 2 * i + half));
        assert_eq!([words[1], words[3]].map(minute), hours, "{text}");
        let said = match &**entries {
            [] => "no entry".into(),
            [one] => format!("entry {one}"),
            [first, .., last] => format!("entries {first} to {last}"),
        };
        assert_eq!(words[4..].join(" "), said, "{text}");
    }
}

/// The text behind a label of an explanation.
fn explained<'t>(text: &'t str, label: &str) -> impl Iterator<Item = &'t str> {
    let label = format!("  {label:7}  ");
    text.lines()
        .filter_map(move |line| line.strip_prefix(&label))
}

/// What is named is the window or duration that the engine refuses: without it and all behind it nothing
/// is refused by 18, with it alone behind them it is. Its bytes are shown, and why.
fn check_range(seen: &mut Seen, night: &Night, number: usize, text: &str) {
    let is_window = place(&night.windows, &[]).0.is_err();
    let (name, file, width) = match is_window {
        true => ("window", &night.windows, 8),
        false => ("duration", &night.durations, 4),
    };
    let (start, end) = (width * number, file.len().min(width * (number + 1)));
    let answer = |end| match is_window {
        true => place(&file[..end], &[]).0,
        false => place(&[], &file[..end]).0,
    };
    let range = Err(Reason::ClosureRange.at(number));
    assert!(answer(start) != range && answer(end) == range, "{text}");
    let at = match end - start {
        1 => format!("byte {start}"),
        _ => format!("bytes {start} to {}", end - 1),
    };
    let named = format!("{name} {number}: {at} of {name}s.bin");
    assert_eq!(explained(text, "where").next(), Some(&*named));
    let shown = explained(text, "bytes").next().expect("bytes");
    let shown = shown.split(':').next().unwrap_or("").replace(' ', "");
    let bytes = file[start..end].iter().map(|byte| format!("{byte:02X}"));
    assert_eq!(shown, bytes.collect::<String>());
    let why: Vec<&str> = explained(text, "why").collect();
    assert!(!why.is_empty(), "{text}");
    assert_eq!(
        why.iter().any(|why| why.contains(" is cut: ")),
        end - start < width
    );
    match is_window {
        true => seen.bad_windows += 1,
        false => seen.bad_durations += 1,
    }
}

/// The entry before ends when it is said, and the room that is said to be left is just what an entry
/// could have there.
fn check_no_room(seen: &mut Seen, night: &Night, list: &[u64], number: usize, text: &str) {
    assert!(text.lines().count() <= 4, "{text}");
    let entry = format!("entry {number}, move a{}: ", list[number]);
    assert!(
        explained(text, "where").all(|said| said.starts_with(&entry)),
        "{text}"
    );
    let before = &night.durations[..4 * number];
    let end = place(&night.windows, before).0.expect("placed").end;
    let needs = explained(text, "needs").next().expect("what it needs");
    let minutes = minute_at(&night.durations, number);
    assert!(needs.starts_with(&format!("{minutes} minute")), "{text}");
    let ends = format!(", which ends at {} ", clock(end));
    assert_eq!(needs.contains(&ends), number > 0, "{text}");
    let why = explained(text, "why").next().expect("why");
    let room = match why.split_once(" has the most room, ") {
        Some((_, room)) => room
            .split(' ')
            .next()
            .unwrap_or("")
            .parse()
            .expect("minutes"),
        None => 0,
    };
    assert!(room < minutes, "{text}");
    let with = |minutes: u32| [before, &minutes.to_be_bytes()].concat();
    let longer = place(&night.windows, &with(room as u32 + 1)).0;
    assert_eq!(longer, Err(Reason::NoPlacement.at(number)), "{text}");
    if room > 0 {
        let placed = place(&night.windows, &with(room as u32)).0;
        assert!(placed.is_ok(), "{text}");
        let shuts = why.rsplit(' ').next().map(minute);
        assert!(
            placed.is_ok_and(|placed| Some(placed.end) == shuts),
            "{text}"
        );
    }
    seen.unplaced += 1;
}

/// Campaigns with a plan, and its list.
fn campaigns(rng: &mut Rng) -> Vec<(Task, Vec<u64>)> {
    let mut tasks = vec![m1(), many_records(40, 8), many_records(3, 1)];
    tasks.extend((0..14).map(repeated));
    for i in 0..60 {
        let kind = [Kind::Written, Kind::Normal][i % 2];
        tasks.push(task_of(rng, kind, [5, 2, 1 + i % 8]));
    }
    let lists = tasks.into_iter().filter_map(|task| {
        let records = records(&task)?;
        let list = records.iter();
        let list = list.flat_map(|(mv, count)| iter::repeat_n(*mv, *count as usize));
        let list: Vec<u64> = list.take(200).collect();
        (list.len() < 200).then_some((task, list))
    });
    lists.collect()
}

/// Windows that touch, or nearly do, or lie far apart, and durations about as long as the windows.
fn closure(rng: &mut Rng, task: &Task, entries: usize) -> Night {
    let (gap, length) = *rng.pick(&[(3, 12), (30, 90), (200, 1_500), (9_000, 6_000)]);
    let mut from = 0;
    let windows = (0..*rng.pick(&[1, 2, 3, 5, 9, 30, 64])).map(|_| {
        let opens = from + rng.below(2) * rng.below(gap);
        from = opens + 1 + rng.below(length);
        [opens, from]
    });
    let windows: Vec<usize> = windows.flatten().collect();
    let longest = length.min(1_440).div_ceil(*rng.pick(&[1, 2, 8]));
    let durations = (0..entries).map(|_| 1 + rng.below(longest) as u32);
    Night {
        task: task.clone(),
        durations: minutes(durations),
        windows: minutes(windows.iter().map(|minute| *minute as u32)),
    }
}

/// Changes, cuts, repeats or adds bytes of a file.
fn damage(rng: &mut Rng, file: &mut Vec<u8>) {
    let at = rng.below(file.len() + 1);
    let minutes = [
        0,
        1,
        2,
        1_440,
        1_441,
        999_999,
        1_000_000,
        1_000_001,
        u32::MAX,
    ];
    match rng.below(6) {
        0 => file.truncate(at),
        1 => file.insert(at, rng.byte()),
        2 => file.extend_from_within(at / 4 * 4..),
        3 if at < file.len() => file[at] = rng.byte(),
        _ if file.len() >= 4 => {
            let start = 4 * rng.below(file.len() / 4);
            file[start..start + 4].copy_from_slice(&rng.pick(&minutes).to_be_bytes());
        }
        _ => file.push(rng.byte()),
    }
}

#[test]
fn timetables_are_what_the_engine_places() {
    let mut rng = Rng::new(722);
    let mut seen = Seen::default();
    for (task, list) in campaigns(&mut rng) {
        for _ in 0..8 {
            check(&mut seen, &closure(&mut rng, &task, list.len()), &list);
        }
    }
    let counts = [seen.placed, seen.skipped, seen.unplaced];
    assert!(counts.iter().all(|count| *count >= 40), "{counts:?}");
    assert_eq!(seen.bad_windows + seen.bad_durations + seen.miscounted, 0);
}

#[test]
fn damaged_closures() {
    let mut rng = Rng::new(723);
    let mut seen = Seen::default();
    for (task, list) in campaigns(&mut rng) {
        for i in 0..10 {
            let mut night = closure(&mut rng, &task, list.len());
            let file = match i % 2 {
                0 => &mut night.windows,
                _ => &mut night.durations,
            };
            damage(&mut rng, file);
            check(&mut seen, &night, &list);
        }
    }
    let Seen {
        bad_windows,
        bad_durations,
        unplaced,
        miscounted,
        placed,
        ..
    } = seen;
    let counts = [bad_windows, bad_durations, unplaced, miscounted, placed];
    assert!(counts.iter().all(|count| *count >= 20), "{counts:?}");
}
