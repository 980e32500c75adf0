//! `lapyndo timetable`: its sessions, wrong use, long files, and campaigns without a list.

mod printed;

use crate::common::folder::{Folder, Printed};
use crate::common::tasks::spoilt_tasks;
use crate::tool::{check_sessions, lapyndo};
use crate::tool_use::complaint;
use campaign::answer::Answer;
use campaign::generate::{blocked, steep, task_of, Rng, Task};
use campaign::harness::planned;
use campaign::hex::bytes;
use campaign::proved::PROVED;
use campaign::reference::table::Kind;
use std::fs;
use std::iter;
use std::os::unix::fs::symlink;

const SESSIONS: &str = include_str!("data/tool/timetable.txt");

#[test]
fn timetables_and_refusals() {
    assert!(check_sessions(SESSIONS) >= 46);
    for number in [2, 9, 16, 18, 19] {
        let refused = SESSIONS.contains(&format!("refusal {number} place "));
        assert!(refused, "{number}");
    }
}

/// A campaign, the windows of a closure and the durations of entries.
#[derive(Clone)]
struct Night {
    task: Task,
    windows: Vec<u8>,
    durations: Vec<u8>,
}

/// Minutes as files have them.
fn minutes(numbers: impl IntoIterator<Item = u32>) -> Vec<u8> {
    numbers.into_iter().flat_map(u32::to_be_bytes).collect()
}

impl Night {
    fn new(task: Task, windows: &[[u32; 2]], durations: &[u32]) -> Night {
        Night {
            task,
            windows: minutes(windows.iter().flatten().copied()),
            durations: minutes(durations.iter().copied()),
        }
    }

    fn folder(&self) -> Folder {
        let folder = Folder::of(&self.task.table, &self.task.state);
        let folder = folder.with("windows.bin", &self.windows);
        folder.with("durations.bin", &self.durations)
    }

    fn timetable(&self) -> Printed {
        lapyndo(&self.folder().0, &["timetable", "."])
    }
}

/// The records of a campaign's plan, if it has one.
fn records(task: &Task) -> Option<Vec<(u64, u64)>> {
    let normal = task.in_normal_form();
    let planned = planned(&PROVED, &normal.table, &normal.state).ok()?;
    (planned.plan.answer != Answer::NoPlan).then_some(planned.records)
}

/// A campaign whose plan makes its one move as often as wanted.
fn repeated(times: u32) -> Task {
    let mut table = bytes("54 00 01 01; 41 46 01 00 00000001; 47 57 00 0001 43 00");
    table.extend(times.to_be_bytes());
    table.push(0x45);
    Task {
        table,
        state: vec![0; 4],
    }
}

/// As many windows as there may be, and an entry that fits the last of them only.
fn sixty_four_windows() -> Night {
    let mut windows: Vec<[u32; 2]> = (0..64).map(|i| [10 * i, 10 * i + 5]).collect();
    windows[63][1] = 640;
    Night::new(repeated(1), &windows, &[10])
}

#[test]
fn sixty_four_windows_are_taken() {
    let mut night = sixty_four_windows();
    let printed = night.timetable();
    let entry = "\n  0  10:30 to 10:40  window 63  a0   v0 += 1\n";
    assert!(printed.out.contains(entry), "{}", printed.out);
    night.windows.truncate(8 * 63);
    assert!(night.timetable().out.starts_with("refusal 19 place 0: "));
}

/// The 65th is refused, with all else that is wrong with it.
#[test]
fn sixty_five_windows_are_not() {
    let most = "a closure has 64 windows at most: window 0 to window 63";
    let cut = "windows.bin is cut: a window has 8 bytes, 4 for each of its two minutes";
    let turned = "a window must shut later than it opens";
    let early = "it opens before window 63 shuts, at 10:40 (minute 640)";
    let good = "00000280 000002BC: opens at 10:40 (minute 640), shuts at 11:40 (minute 700)";
    let bad = "00000009 00000009: opens at 00:09 (minute 9), shuts at 00:09 (minute 9)";
    for (shown, last, why) in [
        (good, 519, &[most][..]),
        (bad, 519, &[most, turned, early]),
        ("0000", 513, &[most, cut]),
    ] {
        let mut night = sixty_four_windows();
        let window = shown.split(':').next().expect("bytes");
        night.windows.extend(bytes(window));
        let why = why.iter().map(|why| format!("  why      {why}\n"));
        let why: String = why.collect();
        let expected = format!(
            "refusal 18 place 64: a window or a duration is out of order or range\n  \
             where    window 64: bytes 512 to {last} of windows.bin\n  bytes    {shown}\n{why}"
        );
        let printed = night.timetable();
        assert_eq!((&*printed.out, printed.status), (&*expected, 1));
    }
}

/// What is said of durations that are not as many as the entries.
fn miscounted(durations: usize, entries: u64) -> String {
    let durations = match durations {
        1 => "1 duration".into(),
        _ => format!("{durations} durations"),
    };
    let entries = match entries {
        1 => "1 entry".into(),
        _ => format!("{entries} entries"),
    };
    format!(
        "./durations.bin: it has {durations}, and the plan has {entries}; there must be one for each"
    )
}

/// Also where there is no room for as many as there are, and where the list is longer than any memory.
#[test]
fn durations_that_are_not_one_an_entry() {
    let said = |task: Task, durations: &[u32]| {
        let night = Night::new(task, &[[0, 30], [40, 50]], durations);
        complaint(night.timetable())
    };
    for (entries, durations) in [
        (3, &[5, 5][..]),
        (3, &[5, 5, 5, 5]),
        (3, &[]),
        (3, &[31]),
        (1, &[31, 5]),
        (0, &[5]),
    ] {
        let expected = miscounted(durations.len(), entries.into());
        assert_eq!(said(repeated(entries), durations), expected);
    }
    let mut rng = Rng::new(720);
    let mut most = 0;
    for task in (0..40).map(|_| steep(&mut rng)) {
        if let Some(records) = records(&task) {
            let entries = records.iter().map(|(_, count)| count).sum();
            assert_eq!(said(task, &[5, 5]), miscounted(2, entries));
            most = most.max(entries);
        }
    }
    assert!(most > 100_000_000_000, "{most} entries");
}

#[test]
fn files_that_cannot_be_read() {
    let folder = Night::new(repeated(1), &[[0, 10]], &[10]).folder();
    let said = || complaint(lapyndo(&folder.0, &["timetable", "."]));
    for file in ["durations.bin", "windows.bin"] {
        let path = folder.0.join(file);
        fs::remove_file(&path).expect("the file is there");
        assert_eq!(said(), format!("./{file}: there is no such file"));
        fs::create_dir(&path).expect("a folder");
        assert_eq!(
            said(),
            format!("./{file}: this is a folder, and not a file")
        );
    }
}

/// What the engine refuses is refused by it as far as files are read, and no file is read to its end.
#[test]
fn files_that_are_long() {
    let windows: Vec<[u32; 2]> = (0..1000).map(|i| [i, i + 1]).collect();
    let mut night = Night::new(repeated(1_000_000), &windows, &[1]);
    assert!(night.timetable().out.starts_with("refusal 18 place 64: "));
    night.windows.push(0);
    let windows = "./windows.bin: the file has more than 8000 bytes, and 64 windows have 512";
    assert_eq!(complaint(night.timetable()), windows);
    night.windows = minutes([0, 1_000_000]);
    night.durations = minutes(iter::repeat_n(1, 2_000_000));
    let many = miscounted(2_000_000, 1_000_000);
    assert_eq!(complaint(night.timetable()), many);
    *night.durations.last_mut().expect("a byte") = 0;
    assert!(night
        .timetable()
        .out
        .starts_with("refusal 18 place 1999999: "));
    night.durations.push(0);
    let durations = "./durations.bin: the file has more than 8000000 bytes, \
        and a list that fits a closure has 4000000 at most";
    assert_eq!(complaint(night.timetable()), durations);
    for (file, expected) in [("durations.bin", durations), ("windows.bin", windows)] {
        let folder = night.folder();
        fs::write(folder.0.join("windows.bin"), []).expect("a file");
        fs::remove_file(folder.0.join(file)).expect("the file is there");
        symlink("/dev/zero", folder.0.join(file)).expect("a link");
        assert_eq!(complaint(lapyndo(&folder.0, &["timetable", "."])), expected);
    }
}

/// The longest list that has a placement: an entry a minute.
#[test]
fn an_entry_for_each_minute_of_a_closure() {
    let durations = vec![1; 1_000_000];
    let night = Night::new(repeated(1_000_000), &[[0, 1_000_000]], &durations);
    let printed = night.timetable();
    assert_eq!((printed.status, &*printed.error), (0, ""));
    let last = "\n  999999  16666:39 to 16666:40  window 0  a0   v0 += 1\n\
        end       16666:40, minute 1000000\n";
    assert!(printed.out.contains(last));
    assert_eq!(printed.out.lines().count(), 1_000_008);
    let short = Night::new(repeated(1_000_000), &[[1, 1_000_000]], &durations);
    let printed = short.timetable();
    assert!(
        printed.out.starts_with("refusal 19 place 999999: "),
        "{}",
        printed.out
    );
    assert!(printed
        .out
        .ends_with("  why      from 16666:40 on no window is open\n"));
}

/// Where there is nothing to place, `plan` says the same.
#[test]
fn campaigns_without_a_list() {
    let mut rng = Rng::new(721);
    let mut tasks = spoilt_tasks(&mut rng, 60);
    for _ in 0..60 {
        let task = task_of(&mut rng, Kind::Normal, [4, 4, 3]);
        tasks.push(blocked(&mut rng, &task));
    }
    let (mut refused, mut unplanned) = (0, 0);
    for task in tasks.into_iter().filter(|task| records(task).is_none()) {
        let folder = Night::new(task, &[[5, 4]], &[0]).folder();
        let [timetable, plan] = ["timetable", "plan"].map(|name| lapyndo(&folder.0, &[name, "."]));
        assert_eq!(timetable, plan);
        refused += usize::from(plan.status == 1);
        unplanned += usize::from(plan.status == 0);
    }
    assert!(refused > 30 && unplanned > 20, "{refused} {unplanned}");
}
