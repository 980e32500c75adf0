//! What each comparison becomes, byte by byte.

use super::{
    any_constant, any_sum, closing, term, Condition, Sum, EDGES, NUMBERS, TERMS, VARIABLES,
};
use campaign::engine::Lent;
use campaign::generate::{hex, Rng};
use campaign::guarded::Guarded;
use campaign::proved;

/// The rule of document 01, "Normal form", for a sum S and a constant c.
fn rule(condition: &Condition) -> Vec<u8> {
    let (s, c) = (&condition.sum, condition.constant);
    match condition.number {
        // ≥ c stays
        0 => at_least(s, c),
        // > c is S ≥ c+1
        1 => at_least(s, c + 1),
        // ≤ c is −S ≥ −c
        2 => at_least(&minus(s), -c),
        // < c is −S ≥ 1−c
        3 => at_least(&minus(s), 1 - c),
        // = c is S ≥ c, then −S ≥ −c
        4 => [at_least(s, c), at_least(&minus(s), -c)].concat(),
        number => unreachable!("no comparison has the number {number}"),
    }
}

fn minus(sum: &Sum) -> Sum {
    sum.iter().map(|(v, w)| (*v, -w)).collect()
}

/// "Sum ≥ c" over signed variables: a weight above 0 stands on 2i, one below 0, turned, on 2i+1, and
/// one of 0 is dropped.
fn at_least(sum: &Sum, constant: i128) -> Vec<u8> {
    let used = sum.iter().filter(|(_, w)| *w != 0);
    let signed = used.flat_map(|(v, w)| match *w > 0 {
        true => term(2 * v, *w),
        false => term(2 * v + 1, -w),
    });
    signed.chain(closing(0, constant)).collect()
}

/// A table with one move and a goal, other commands beside these conditions, and its normal form.
fn table_and_form(mv: &[Condition], goal: &[Condition]) -> [Vec<u8>; 2] {
    let n = VARIABLES as u8;
    let written = |conditions: &[Condition]| conditions.iter().flat_map(Condition::bytes).collect();
    let normal = |conditions: &[Condition]| conditions.iter().flat_map(rule).collect();
    [
        framed([0x54, 1, n, 1], written(mv), written(goal)),
        framed([0x4E, 1, 2 * n, 1], normal(mv), normal(goal)),
    ]
}

fn framed(head: [u8; 4], mv: Vec<u8>, goal: Vec<u8>) -> Vec<u8> {
    let parts = [&head, &[0x41, 0x50, 0][..], &mv, &[0x2B, 0, 0x47]];
    let goal = [&goal, &[0x50, 0, 0x45][..]];
    [parts.concat(), goal.concat()].concat()
}

/// An output that is a little longer than the normal form.
fn output(form: &[u8]) -> Guarded<u8> {
    Guarded::filled(form.len() + 3, |i| 0x96 ^ i as u8)
}

/// The output holds the normal form, and behind it what it held before.
fn check_output(output: &Guarded<u8>, table: &[u8], form: &[u8]) {
    let mut expected = self::output(form);
    expected.lend()[..form.len()].copy_from_slice(form);
    let [got, wanted] = [output, &expected].map(|output| hex(output.lent()));
    assert_eq!(got, wanted, "{}", hex(table));
    output.check("output").expect("all canaries are whole");
}

/// The normal form of `normalise`.
fn check_normalise([table, form]: &[Vec<u8>; 2]) {
    let mut out = output(form);
    let answer = proved::normalise(table, out.lend());
    assert_eq!(answer, Ok(form.len()), "{}", hex(table));
    check_output(&out, table, form);
}

/// The normal form that `campaign` leaves, which stays whatever is refused after it.
fn check_campaign([table, form]: &[Vec<u8>; 2]) {
    let mut out = output(form);
    let lent = Lent {
        normal: out.lend(),
        layers: &mut [],
        out: &mut [],
    };
    let refusal = proved::campaign(table, &[0; 1 + 4 * VARIABLES], lent).plan;
    assert_eq!(refusal.map_err(|r| r.reason.number()), Err(14));
    check_output(&out, table, form);
}

/// Sums of so many terms: one weight for all, weights that take turns, and all sorts of weights.
fn sums(rng: &mut Rng, terms: usize) -> Vec<Sum> {
    let patterns: [&[i128]; 10] = [
        &[1],
        &[-1],
        &[1_000],
        &[-1_000],
        &[0],
        &[1, -1],
        &[-1_000, 1_000],
        &[0, 1],
        &[-1, 0, 1_000],
        &[999, -999, 2],
    ];
    let mut sums = Vec::new();
    for weights in patterns {
        let variables = rng.subset(terms, VARIABLES).into_iter();
        sums.push(variables.zip(weights.iter().copied().cycle()).collect());
    }
    sums.extend((0..6).map(|_| any_sum(rng, terms)));
    sums
}

/// Each comparison × constants × sums, in a move and in the goal.
#[test]
fn each_comparison_is_its_rule() {
    let mut rng = Rng::new(801);
    let mut constants = EDGES.to_vec();
    constants.extend((0..8).map(|_| rng.between(-1_000_000, 1_000_000)));
    let mut checked = [[0; 2]; 5];
    for terms in 0..=TERMS {
        for sum in sums(&mut rng, terms) {
            for constant in &constants {
                for number in NUMBERS {
                    let condition = [Condition {
                        sum: sum.clone(),
                        number,
                        constant: *constant,
                    }];
                    check_normalise(&table_and_form(&condition, &[]));
                    check_normalise(&table_and_form(&[], &condition));
                    checked[usize::from(number)][0] += 1;
                    checked[usize::from(number)][1] += 1;
                }
            }
        }
    }
    assert_eq!(checked, [[9 * 16 * 15; 2]; 5]);
}

fn any_conditions(rng: &mut Rng) -> Vec<Condition> {
    let any = |rng: &mut Rng| {
        let terms = rng.below(TERMS + 1);
        Condition {
            sum: any_sum(rng, terms),
            number: *rng.pick(&NUMBERS),
            constant: any_constant(rng),
        }
    };
    (0..rng.below(7)).map(|_| any(rng)).collect()
}

/// Several conditions in one block, in both: each becomes what it becomes alone, in their order.
#[test]
fn conditions_beside_each_other_keep_their_order() {
    let mut rng = Rng::new(802);
    let mut conditions = 0;
    for _ in 0..4_000 {
        let [mv, goal] = [(); 2].map(|()| any_conditions(&mut rng));
        conditions += mv.len() + goal.len();
        let both = table_and_form(&mv, &goal);
        check_normalise(&both);
        check_campaign(&both);
    }
    assert!(conditions > 20_000, "{conditions}");
}

/// The bytes of a few rows by hand, so that the expectation itself is checked.
#[test]
fn rules_by_hand() {
    let by_hand = [
        "5702000257050003 4300 00000005",
        "5702000257050003 4300 00000006",
        "5703000257040003 4300 fffffffb",
        "5703000257040003 4300 fffffffc",
        "5702000257050003 4300 00000005 5703000257040003 4300 fffffffb",
    ];
    for number in NUMBERS {
        let condition = [Condition {
            sum: vec![(0, 0), (1, 2), (2, -3)],
            number,
            constant: 5,
        }];
        let expected = campaign::hex::bytes(by_hand[usize::from(number)]);
        assert_eq!(rule(&condition[0]), expected, "{number}");
        check_normalise(&table_and_form(&condition, &condition));
    }
}
