//! Closure days by hand, from the text of document 02, on the reference and on the proved engine.

use crate::common::closure::{is_kept, run, HELD};
use campaign::engine::Place;
use campaign::generate::{minute_bytes as minutes, window_bytes as windows};
use campaign::hex::bytes;
use campaign::placements::Window;
use campaign::{proved, reference};

/// The calls under test, which all answer the same.
const CALLS: [Place; 2] = [reference::place, proved::place];

/// The end minute and the whole output, or the number and the place of a refusal.
type Outcome = Result<(u64, Vec<u8>), (u8, u64)>;

/// A refused call keeps its output, and an accepted one has a start for every duration.
fn outcome(windows: &[u8], durations: &[u8], room: usize) -> Outcome {
    let outcomes = CALLS.map(|call| {
        let (answer, out) = run(call, windows, durations, room);
        match answer {
            Ok(placed) => {
                assert_eq!(placed.length, durations.len());
                Ok((placed.end, out))
            }
            Err(refusal) => {
                assert!(is_kept(&out), "{refusal}");
                Err((refusal.reason.number(), refusal.place))
            }
        }
    });
    let [first, others @ ..] = outcomes;
    others.iter().for_each(|other| assert_eq!(*other, first));
    first
}

/// With room for exactly all starts.
fn day(pairs: &[Window], durations: &[u64]) -> Outcome {
    let durations = minutes(durations);
    outcome(&windows(pairs), &durations, durations.len())
}

fn placed(end: u64, starts: &[u64]) -> Outcome {
    Ok((end, minutes(starts)))
}

/// So many windows of a minute, a minute apart.
fn minute_windows(count: u64) -> Vec<Window> {
    (0..count).map(|i| (2 * i, 2 * i + 1)).collect()
}

/// One fault less each time.
#[test]
fn windows_then_durations_then_the_placement_then_the_output() {
    let overlapping = windows(&[(0, 5), (4, 9)]);
    let touching = windows(&[(0, 5), (5, 9)]);
    assert_eq!(outcome(&overlapping, &minutes(&[6, 1, 0]), 0), Err((18, 1)));
    assert_eq!(outcome(&touching, &minutes(&[6, 1, 0]), 0), Err((18, 2)));
    assert_eq!(outcome(&touching, &minutes(&[6, 1, 1]), 0), Err((19, 0)));
    assert_eq!(outcome(&touching, &minutes(&[4, 1, 1]), 11), Err((13, 0)));
    let whole = outcome(&touching, &minutes(&[4, 1, 1]), 12);
    assert_eq!(whole, placed(6, &[0, 4, 5]));
}

#[test]
fn the_first_fault_of_each_list() {
    assert_eq!(day(&[(0, 5), (5, 5), (3, 2)], &[0]), Err((18, 1)));
    assert_eq!(day(&[(7, 5), (5, 5), (3, 2)], &[]), Err((18, 0)));
    assert_eq!(day(&[(0, 5)], &[1, 2, 1_441, 0]), Err((18, 2)));
    assert_eq!(day(&[(0, 5)], &[0, 2, 1_441, 0]), Err((18, 0)));
}

#[test]
fn windows_out_of_order() {
    assert_eq!(day(&[(0, 1)], &[1]), placed(1, &[0]));
    assert_eq!(day(&[(5, 5)], &[]), Err((18, 0)));
    assert_eq!(day(&[(6, 5)], &[]), Err((18, 0)));
    for second in [(4, 7), (4, 5), (0, 5), (2, 3), (5, 5), (6, 6), (9, 7)] {
        assert_eq!(day(&[(0, 5), second], &[]), Err((18, 1)), "{second:?}");
    }
    assert_eq!(day(&[(10, 20), (0, 5)], &[]), Err((18, 1)));
    assert_eq!(day(&[(0, 5), (10, 20), (6, 9)], &[]), Err((18, 2)));
}

#[test]
fn windows_cut_short() {
    let three = windows(&[(0, 5), (5, 9), (20, 30)]);
    for length in 0..=three.len() {
        let expected = match length % 8 {
            0 => placed(0, &[]),
            _ => Err((18, length as u64 / 8)),
        };
        assert_eq!(outcome(&three[..length], &[], 0), expected, "{length}");
    }
    let cut = [windows(&[(0, 5), (5, 5)]), vec![0]].concat();
    assert_eq!(outcome(&cut, &[0], 4), Err((18, 1)));
    let cut = [windows(&[(0, 5), (5, 9)]), vec![0]].concat();
    assert_eq!(outcome(&cut, &[0], 4), Err((18, 2)));
}

#[test]
fn durations_cut_short() {
    let day = windows(&[(3, 9)]);
    let three = minutes(&[1, 2, 3]);
    let expected = [placed(0, &[]), placed(4, &[3]), placed(6, &[3, 4])];
    for (length, entries) in (0..12).map(|length| (length, length / 4)) {
        let expected = match length % 4 {
            0 => expected[entries].clone(),
            _ => Err((18, entries as u64)),
        };
        let room = 4 * entries;
        assert_eq!(outcome(&day, &three[..length], room), expected, "{length}");
    }
    assert_eq!(outcome(&day, &three, 12), placed(9, &[3, 4, 6]));
    let cut = bytes("00000001 00000000 000000");
    assert_eq!(outcome(&day, &cut, 12), Err((18, 1)));
    let no_placement = bytes("00000007 000000");
    assert_eq!(outcome(&day, &no_placement, 8), Err((18, 1)));
}

#[test]
fn the_64th_window_and_the_65th() {
    let starts: Vec<u64> = (0..64).map(|i| 2 * i).collect();
    assert_eq!(day(&minute_windows(64), &[1; 64]), placed(127, &starts));
    assert_eq!(day(&minute_windows(64), &[1; 65]), Err((19, 64)));
    assert_eq!(day(&minute_windows(65), &[1; 65]), Err((18, 64)));
    assert_eq!(day(&minute_windows(65), &[]), Err((18, 64)));
    assert_eq!(day(&minute_windows(500), &[0]), Err((18, 64)));
    let cut = [windows(&minute_windows(64)), vec![0; 7]].concat();
    assert_eq!(outcome(&cut, &[], 0), Err((18, 64)));
    for (fault, place) in [(3, 3), (63, 63), (64, 64), (65, 64)] {
        let mut many = minute_windows(66);
        many[fault] = (2, 2);
        assert_eq!(day(&many, &[1]), Err((18, place)), "{fault}");
    }
}

#[test]
fn minutes_up_to_1_000_000() {
    let last = [(999_999, 1_000_000)];
    assert_eq!(day(&last, &[1]), placed(1_000_000, &[999_999]));
    assert_eq!(day(&last, &[2]), Err((19, 0)));
    assert_eq!(day(&[(0, 1_000_000)], &[1]), placed(1, &[0]));
    let whole = [(0, 999_999), (999_999, 1_000_000)];
    assert_eq!(day(&whole, &[]), placed(0, &[]));
    assert_eq!(day(&[(0, 1_000_001)], &[1]), Err((18, 0)));
    assert_eq!(day(&[(999_999, 1_000_001)], &[]), Err((18, 0)));
    assert_eq!(day(&[(1_000_000, 1_000_001)], &[]), Err((18, 0)));
    assert_eq!(day(&[(1_000_000, 1_000_000)], &[]), Err((18, 0)));
    assert_eq!(day(&[(0, 5), (1_000_001, 7)], &[]), Err((18, 1)));
}

#[test]
fn durations_from_1_to_1_440() {
    assert_eq!(day(&[(7, 1_447)], &[1_440]), placed(1_447, &[7]));
    assert_eq!(day(&[(7, 1_446)], &[1_440]), Err((19, 0)));
    let [both, short] = [(0, 2_880), (0, 2_879)].map(|window| day(&[window], &[1_440; 2]));
    assert_eq!(both, placed(2_880, &[0, 1_440]));
    assert_eq!(short, Err((19, 1)));
    assert_eq!(day(&[(0, 9_000)], &[1_441]), Err((18, 0)));
    assert_eq!(day(&[(0, 9_000)], &[1, 1_440, 1_441]), Err((18, 2)));
    assert_eq!(day(&[(0, 9_000)], &[0]), Err((18, 0)));
    assert_eq!(day(&[(0, 9_000)], &[1, 0]), Err((18, 1)));
}

/// The top bit is no sign, and the first byte is the highest.
#[test]
fn minutes_with_the_top_bit_set() {
    for window in [
        "80000000 80000001",
        "fffffffe ffffffff",
        "ffffffff 00000005",
        "80000000 00000005",
        "00000003 80000000",
        "00000003 80000005",
        "00000003 ffffffff",
        "00000003 01000000",
    ] {
        let window = bytes(window);
        assert_eq!(outcome(&window, &[], 0), Err((18, 0)), "{window:?}");
        let second = [windows(&[(0, 3)]), window].concat();
        assert_eq!(outcome(&second, &[], 0), Err((18, 1)), "{second:?}");
    }
    let day = windows(&[(0, 1_000_000)]);
    for duration in ["80000000", "80000001", "ffffffff", "01000000", "00010001"] {
        let duration = bytes(duration);
        assert_eq!(outcome(&day, &duration, 4), Err((18, 0)), "{duration:?}");
        let second = [minutes(&[1]), duration].concat();
        assert_eq!(outcome(&day, &second, 8), Err((18, 1)), "{second:?}");
    }
}

#[test]
fn touching_windows_stay_two() {
    let touching = [(0, 10), (10, 20)];
    assert_eq!(day(&touching, &[10, 10]), placed(20, &[0, 10]));
    assert_eq!(day(&touching, &[6, 6]), placed(16, &[0, 10]));
    assert_eq!(day(&touching, &[6, 4, 1]), placed(11, &[0, 6, 10]));
    assert_eq!(day(&touching, &[9, 2, 8]), placed(20, &[0, 10, 12]));
    assert_eq!(day(&touching, &[11]), Err((19, 0)));
    assert_eq!(day(&touching, &[9, 2, 9]), Err((19, 2)));
    let minutes = [(4, 5), (5, 6), (6, 7)];
    assert_eq!(day(&minutes, &[1, 1, 1]), placed(7, &[4, 5, 6]));
    assert_eq!(day(&minutes, &[1, 2]), Err((19, 1)));
}

#[test]
fn entries_stay_in_order() {
    let halves = [(480, 720), (780, 1_020)];
    assert_eq!(day(&halves, &[60, 180]), placed(720, &[480, 540]));
    assert_eq!(day(&halves, &[60, 181]), placed(961, &[480, 780]));
    let back = day(&halves, &[200, 100, 30]);
    assert_eq!(back, placed(910, &[480, 780, 880]));
    let three = [(0, 5), (10, 12), (20, 40)];
    assert_eq!(day(&three, &[6, 1, 2]), placed(29, &[20, 26, 27]));
    assert_eq!(day(&three, &[4, 2, 3]), placed(23, &[0, 10, 20]));
}

/// The place is that of the first entry up to which there is no placement, whatever comes behind.
#[test]
fn lists_without_a_placement() {
    assert_eq!(day(&[(0, 10)], &[5, 5, 1, 100]), Err((19, 2)));
    assert_eq!(day(&[(0, 10)], &[11, 1]), Err((19, 0)));
    assert_eq!(day(&[(0, 10), (20, 24)], &[6, 5, 1]), Err((19, 1)));
    assert_eq!(day(&[(0, 10), (20, 24)], &[6, 4, 3, 2]), Err((19, 3)));
    assert_eq!(day(&[(0, 4), (20, 30)], &[5, 5, 4]), Err((19, 2)));
}

#[test]
fn no_entries_or_no_windows() {
    let held = || Ok((0, vec![HELD; 3]));
    assert_eq!(outcome(&[], &[], 0), placed(0, &[]));
    assert_eq!(outcome(&[], &[], 3), held());
    assert_eq!(outcome(&windows(&[(5, 9)]), &[], 3), held());
    assert_eq!(outcome(&windows(&[(5, 4)]), &[], 3), Err((18, 0)));
    assert_eq!(day(&[], &[1]), Err((19, 0)));
    assert_eq!(day(&[], &[1, 1]), Err((19, 0)));
    assert_eq!(outcome(&[], &minutes(&[1]), 0), Err((19, 0)));
    assert_eq!(day(&[], &[1, 0]), Err((18, 1)));
}

#[test]
fn outputs_around_the_length_written() {
    let (windows, durations) = (windows(&[(0, 5), (300, 900)]), minutes(&[2, 4]));
    for room in 0..8 {
        assert_eq!(outcome(&windows, &durations, room), Err((13, 0)), "{room}");
    }
    let starts = bytes("00000000 0000012c");
    for room in 8..20 {
        let whole = [starts.clone(), vec![HELD; room - 8]].concat();
        let expected = Ok((304, whole));
        assert_eq!(outcome(&windows, &durations, room), expected, "{room}");
    }
}

/// A million entries of a minute fill a whole day; places go as far.
#[test]
fn a_million_entries() {
    const MILLION: u64 = 1_000_000;
    let whole = [(0, MILLION)];
    let mut durations = vec![1; MILLION as usize];
    let starts: Vec<u64> = (0..MILLION).collect();
    assert!(day(&whole, &durations) == placed(MILLION, &starts));
    durations.push(1);
    assert_eq!(day(&whole, &durations), Err((19, MILLION)));
    durations.push(1_441);
    assert_eq!(day(&whole, &durations), Err((18, MILLION + 1)));
    durations[70_000] = 0;
    assert_eq!(day(&whole, &durations), Err((18, 70_000)));
}
