//! What each comparison means: a real condition holds exactly when its normal ones do.

use super::{any_constant, any_sum, Condition, NUMBERS, TERMS, VARIABLES};
use campaign::answer::{Answer, Decision, Reason};
use campaign::generate::{hex, Rng};
use campaign::proved;
use campaign::reference::table::four_bytes;

const LIMIT: i128 = 1_000_000;

/// A condition and a value of each variable.
struct Case {
    condition: Condition,
    values: Vec<i128>,
}

impl Case {
    fn sum(&self) -> i128 {
        let terms = self.condition.sum.iter();
        terms.map(|(v, w)| w * self.values[*v]).sum()
    }

    /// Whether 32 bits do not hold the sum of its first terms, however many.
    fn is_wide(&self) -> bool {
        let terms = self.condition.sum.iter();
        let mut sums = terms.scan(0, |sum, (v, w)| {
            *sum += w * self.values[*v];
            Some(*sum)
        });
        sums.any(|sum: i128| i32::try_from(sum).is_err())
    }

    /// The plain comparison of the sum with the constant.
    fn holds(&self) -> bool {
        let (s, c) = (self.sum(), self.condition.constant);
        match self.condition.number {
            0 => s >= c,
            1 => s > c,
            2 => s <= c,
            3 => s < c,
            4 => s == c,
            number => unreachable!("no comparison has the number {number}"),
        }
    }

    fn state(&self) -> Vec<u8> {
        self.values.iter().copied().flat_map(four_bytes).collect()
    }

    /// Whether a move that needs the condition and adds p0 can be made.
    fn steps(&self) -> bool {
        let head = [0x54, 1, VARIABLES as u8, 1, 0x41];
        let condition = self.condition.bytes();
        let table = [&head, &condition[..], &[0x2B, 0, 0x47, 0x45]].concat();
        let [before, after] = [0, 1].map(|p0| [vec![p0], self.state()].concat());
        let mut out = vec![0xA5; before.len()];
        match proved::step(&table, &before, 0, &mut out) {
            Ok(length) => {
                assert_eq!((length, &out), (after.len(), &after), "{}", hex(&table));
                true
            }
            Err(refusal) => {
                assert_eq!(refusal, Reason::ConditionsFail.at(0), "{}", hex(&table));
                assert_eq!(out, vec![0xA5; before.len()], "{}", hex(&table));
                false
            }
        }
    }

    /// Whether layer 0 meets the normal form of a goal that is this condition, without moves.
    fn is_met(&self) -> bool {
        let head = [0x54, 0, VARIABLES as u8, 0, 0x47];
        let table = [&head, &self.condition.bytes()[..], &[0x45]].concat();
        let mut form = [0; 200];
        let length = proved::normalise(&table, &mut form).expect("a written table");
        let mut layers = [0; 2 * VARIABLES];
        let decision = proved::decide(&form[..length], &self.state(), &mut layers);
        let Decision { answer, layers } = decision.expect("a normal table, and room");
        assert_eq!(layers, 0, "{}", hex(&table));
        answer == Answer::Layer(0)
    }
}

/// A sum that is mostly near its constant, and now and then far beyond 32 bits on its way there.
fn any_case(rng: &mut Rng, number: u8) -> Case {
    let terms = rng.below(TERMS + 1);
    let mut case = Case {
        condition: Condition {
            sum: any_sum(rng, terms),
            number,
            constant: any_constant(rng),
        },
        values: (0..VARIABLES).map(|_| any_value(rng)).collect(),
    };
    if rng.chance(1, 8) {
        balance(rng, &mut case);
    }
    if rng.chance(7, 8) {
        bring_near(rng, &mut case);
    }
    case
}

/// Six terms that take the sum 3,000,000,000 away from 0 and back, and one of weight ±1.
fn balance(rng: &mut Rng, case: &mut Case) {
    let far = *rng.pick(&[1_000, -1_000]);
    let weights = [far, far, far, -far, -far, -far, *rng.pick(&[1, -1])];
    case.condition.sum = rng.subset(7, VARIABLES).into_iter().zip(weights).collect();
    for (v, _) in &case.condition.sum[..6] {
        case.values[*v] = LIMIT;
    }
}

fn any_value(rng: &mut Rng) -> i128 {
    let size = *rng.pick(&[1, 30, 900, LIMIT]);
    match rng.below(6) {
        0 => size,
        1 => -size,
        _ => rng.between(-size, size),
    }
}

/// Changes the value of a variable of weight ±1, or the constant, so that the sum is at most 2 from
/// the constant; where neither can be, the case stays.
fn bring_near(rng: &mut Rng, case: &mut Case) {
    let distance = *rng.pick(&[-2, -1, -1, 0, 0, 0, 1, 1, 2]);
    let missing = case.condition.constant + distance - case.sum();
    let unit = case.condition.sum.iter().find(|(_, w)| w.abs() == 1);
    let moved = unit.map(|(v, w)| (*v, case.values[*v] + w * missing));
    match moved.filter(|(_, value)| value.abs() <= LIMIT) {
        Some((v, value)) => case.values[v] = value,
        None if (case.sum() - distance).abs() <= LIMIT => {
            case.condition.constant = case.sum() - distance;
        }
        None => {}
    }
}

/// How many cases of one comparison were of each sort.
#[derive(Clone, Copy, Debug, Default)]
struct Shares {
    holding: usize,
    failing: usize,
    /// Sums of c − 1, c and c + 1.
    edges: [usize; 3],
    /// Of these, constants at an end of their range.
    ends: usize,
    /// Of these, sums that 32 bits do not hold on the way.
    wide: usize,
}

impl Shares {
    fn add(&mut self, case: &Case, holds: bool) {
        let (s, c) = (case.sum(), case.condition.constant);
        match holds {
            true => self.holding += 1,
            false => self.failing += 1,
        }
        if (c - 1..=c + 1).contains(&s) {
            self.edges[(s - c + 1) as usize] += 1;
            self.ends += usize::from(c.abs() == LIMIT);
            self.wide += usize::from(case.is_wide());
        }
    }
}

#[test]
fn a_condition_holds_exactly_when_its_normal_ones_do() {
    let mut rng = Rng::new(803);
    let mut shares = [Shares::default(); 5];
    for i in 0..250_000 {
        let number = NUMBERS[i % 5];
        let case = any_case(&mut rng, number);
        let holds = case.holds();
        let got = [case.steps(), case.is_met()];
        let Case { condition, values } = &case;
        assert_eq!(got, [holds; 2], "{condition:?} {values:?}");
        shares[usize::from(number)].add(&case, holds);
    }
    println!("{shares:#?}");
    for share in &shares {
        let Shares {
            holding, failing, ..
        } = *share;
        assert_eq!(holding + failing, 50_000);
        assert!(holding >= 8_000 && failing >= 15_000, "{share:?}");
        assert!(share.edges.iter().all(|count| *count >= 5_000), "{share:?}");
        assert!(share.ends >= 600 && share.wide >= 3_000, "{share:?}");
    }
}
