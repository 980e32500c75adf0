//! `timetable FOLDER`: when to make each move of the plan, in the windows of a closure.

use crate::closure::{clock, minutes, Window};
use crate::commands::{Command, Run};
use crate::engine::FULL;
use crate::explain;
use crate::files::{self, Closure, Folder, DURATIONS};
use crate::outcome::{Done, Misuse, Outcome};
use crate::planning::{self, Task, GUIDES};
use crate::scan::{Block, Scan};
use crate::unplaced;
use crate::words;
use campaign::answer::{Answer, Reason, Refusal};
use campaign::proved;
use std::ffi::{OsStr, OsString};
use std::iter;
use std::path::Path;

pub const TIMETABLE: Command = Command {
    name: "timetable",
    arguments: &["FOLDER"],
    summary: "when to make each move of the plan, in the hours of a closure",
    help: "\
FOLDER also has the windows of the closure and the durations of the entries. windows.bin has
8 bytes for each window: the minute at which it opens and the minute at which it shuts.
durations.bin has 4 bytes for each entry: how many minutes it takes. All are big-endian.
The entries are the moves that lapyndo plan FOLDER shows, in that order, each as many times in a
row as it says. Without a plan there is nothing to place.
There are 64 windows at most, in rising order; two may touch, and none overlaps another. The
closure has minutes 0 to 1000000, and hours count from its minute 0. An entry takes 1 to 1440.
An entry lies wholly in one window, and starts no earlier than the one before it ends; it may end
when the window shuts. In no other placement of these entries does one of them start earlier.
Where there is no placement (19), the first entry that finds no room is shown.
",
    run: Run::Full(run),
};

fn run(words: &[OsString]) -> Done {
    let name = &words[0];
    let (folder, closure) = (Folder::read(name)?, Closure::read(name)?);
    match List::of(folder) {
        Ok(list) => placed(&list, &closure, name),
        Err(said) => Ok(said),
    }
}

fn placed(list: &List, closure: &Closure, name: &OsStr) -> Done {
    // As many bytes as the durations have, so that refusal 13 never comes up here.
    let mut starts = vec![0; closure.durations.len()];
    let answer = proved::place(&closure.windows, &closure.durations, &mut starts);
    let is_complete = closure.minutes().len() as u128 == list.length();
    match answer {
        Ok(placed) if is_complete => {
            let timetable = Timetable::of(list, closure, &starts);
            Ok(Outcome::Answer(timetable.said(placed.end)))
        }
        // A duration that is cut is no wrong count.
        Err(refusal) if is_complete || refusal.reason == Reason::ClosureRange => {
            Ok(list.refused(closure, refusal))
        }
        _ => Err(list.incomplete(closure, name)),
    }
}

/// The plan's list: the move of each record as many times in a row as its count.
struct List {
    task: Task,
    records: Vec<(u64, u64)>,
}

impl List {
    /// An error is what is said where there is none: "no plan", or a refusal.
    fn of(folder: Folder) -> Result<List, Outcome> {
        let task = Task::of(&FULL, folder)?;
        let (plan, out) = task.ask(&FULL, |layers| task.make_plan(&FULL, layers))?;
        if plan.answer == Answer::NoPlan {
            let decided = planning::decided(plan.decision());
            return Err(Outcome::Answer(task.heading() + &decided));
        }
        let records = plan.list(&out).collect();
        Ok(List { task, records })
    }

    /// May be far more than any memory holds.
    fn length(&self) -> u128 {
        let counts = self.records.iter().map(|(_, count)| u128::from(*count));
        counts.sum()
    }

    fn moves(&self) -> impl Iterator<Item = usize> + '_ {
        let records = self.records.iter();
        records.flat_map(|(mv, count)| iter::repeat_n(*mv as usize, *count as usize))
    }

    /// What each move of the table needs and does.
    fn items(&self) -> Vec<String> {
        let scan = Scan::of(&self.task.folder.table);
        let [_, _, moves] = scan.counts();
        let moves = (0..moves).map(Block::Move);
        moves.map(|block| words::items(&scan, block)).collect()
    }

    fn refused(&self, closure: &Closure, refusal: Refusal) -> Outcome {
        let place = refusal.place as usize;
        let entry = self.moves().nth(place);
        let made = entry.map(|mv| format!("a{mv}: {}", self.items()[mv]));
        let rows = unplaced::rows(closure, refusal.reason, place, made);
        Outcome::Refused(explain::said(refusal, rows))
    }

    /// The durations are not as many as the entries.
    fn incomplete(&self, closure: &Closure, name: &OsStr) -> Misuse {
        let durations = words::count(closure.minutes().len(), "duration");
        let entries = match self.length() {
            1 => "1 entry".into(),
            length => format!("{length} entries"),
        };
        files::misuse(
            &Path::new(name).join(DURATIONS),
            &format!("it has {durations}, and the plan has {entries}; there must be one for each"),
        )
    }
}

/// An entry where it is placed.
struct Entry {
    mv: usize,
    start: u64,
    end: u64,
    window: usize,
}

struct Timetable<'l> {
    list: &'l List,
    windows: Vec<Window>,
    entries: Vec<Entry>,
    /// How wide hours are at most.
    width: usize,
}

impl Timetable<'_> {
    fn of<'l>(list: &'l List, closure: &Closure, starts: &[u8]) -> Timetable<'l> {
        let windows = closure.windows();
        let times = minutes(starts).zip(closure.minutes());
        let entries = list.moves().zip(times).map(|(mv, (start, minutes))| {
            let end = start + minutes;
            let window = windows.iter().position(|window| window.holds(start, end));
            let window = window.expect("an entry lies in a window");
            Entry {
                mv,
                start,
                end,
                window,
            }
        });
        let entries = entries.collect();
        let last = windows.last().map_or(0, |window| window.shuts);
        Timetable {
            list,
            windows,
            entries,
            width: clock(last).len(),
        }
    }

    fn said(&self, end: u64) -> String {
        let mut text = self.list.task.heading() + &self.window_rows() + &self.entry_rows();
        text += &format!("end       {}, minute {end}\n", clock(end));
        if !self.entries.is_empty() {
            text += EARLIEST;
            text += GUIDES;
        }
        text
    }

    /// A line for each window, with the entries in it.
    fn window_rows(&self) -> String {
        let count = self.windows.len();
        if count == 0 {
            return "windows   none\n".into();
        }
        let wide = digits(count);
        let mut rows =
            format!("windows   {count}: when each opens and shuts, and what is placed there\n");
        for (number, window) in self.windows.iter().enumerate() {
            let (hours, held) = (self.hours(window.opens, window.shuts), self.held(number));
            rows += &format!("  {number:wide$}  {hours}  {held}\n");
        }
        rows
    }

    /// The entries in a window, which follow each other.
    fn held(&self, window: usize) -> String {
        let until = |window| self.entries.partition_point(|entry| entry.window < window);
        let (first, end) = (until(window), until(window + 1));
        match end - first {
            0 => "no entry".into(),
            1 => format!("entry {first}"),
            _ => format!("entries {first} to {}", end - 1),
        }
    }

    fn entry_rows(&self) -> String {
        let count = self.entries.len();
        if count == 0 {
            return "entries   none: the state meets the goal, and no move is needed\n".into();
        }
        let (long, wide) = (digits(count), digits(self.windows.len()));
        let items = self.list.items();
        let mut rows =
            format!("entries   {count}: start and end, window, move, what it needs and does\n");
        for (number, entry) in self.entries.iter().enumerate() {
            let (hours, window) = (self.hours(entry.start, entry.end), entry.window);
            let (name, items) = (format!("a{}", entry.mv), &items[entry.mv]);
            rows +=
                &format!("  {number:long$}  {hours}  window {window:wide$}  {name:3}  {items}\n");
        }
        rows
    }

    fn hours(&self, from: u64, to: u64) -> String {
        let width = self.width;
        format!("{:>width$} to {:>width$}", clock(from), clock(to))
    }
}

/// What is to be known of every timetable.
const EARLIEST: &str = "\
Each entry lies wholly in one window. However these entries are placed in these windows, in this
order, none of them starts earlier than here.
";

/// The digits of the largest of so many numbers from 0.
fn digits(count: usize) -> usize {
    count.saturating_sub(1).to_string().len()
}
