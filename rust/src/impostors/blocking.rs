//! Engines with a fault around the goal part that blocks.

use super::{at_0, Impostor, HONEST};
use crate::answer::{Answer, Blocking, Reason, Refusal};
use crate::call::CallKind;
use crate::commands::commands;
use crate::engine::{Calls, FindBlocking};
use crate::parts::{goal_parts, Needs, Part, Stored};
use crate::reference::{blocking, decide, normal_form, parse_table};
use crate::room;
use std::ops::Range;

pub const BLOCKING: [Impostor; 22] = [
    impostor("the last part that fails blocks", |table, state, layers| {
        found(table, state, layers, |parts, stored| {
            let mut parts = parts.iter().rev();
            offset(parts.find(|part| !stored.meets(part, stored.last())))
        })
    }),
    impostor("the offset is the first term's", |table, state, layers| {
        found(table, state, layers, |parts, stored| {
            let part = stored.first_unmet(parts, stored.last());
            part.map(|part| part.range.start)
        })
    }),
    impostor("layer 0 is looked at", |table, state, layers| {
        found(table, state, layers, |parts, stored| {
            offset(stored.first_unmet(parts, 0))
        })
    }),
    impostor(
        "the layer before the last is looked at",
        |table, state, layers| {
            found(table, state, layers, |parts, stored| {
                let before = stored.last().saturating_sub(1);
                offset(stored.first_unmet(parts, before))
            })
        },
    ),
    impostor("a part that is met blocks", |table, state, layers| {
        found(table, state, layers, |parts, stored| {
            let met = parts.iter().find(|part| stored.meets(part, stored.last()));
            offset(met).or_else(|| first(parts, stored))
        })
    }),
    impostor("nothing ever blocks", |table, state, layers| {
        found(table, state, layers, |_, _| None)
    }),
    impostor(
        "the offset is counted from the goal's mark",
        |table, state, layers| {
            let mark = |parts: &[Part]| parts[0].range.start - 1;
            found(table, state, layers, |parts, stored| {
                first(parts, stored).map(|offset| offset - mark(parts))
            })
        },
    ),
    impostor(
        "the offset is the written table's",
        |table, state, layers| {
            let mirrored = mirrored_bytes(table);
            found(table, state, layers, |parts, stored| {
                first(parts, stored).map(|offset| offset - mirrored)
            })
        },
    ),
    impostor(
        "an effect is taken to have six bytes",
        |table, state, layers| {
            let effects = || commands(table).filter(|(_, command)| command[0] == 0x46);
            found(table, state, layers, |parts, stored| {
                first(parts, stored).map(|offset| offset - effects().count())
            })
        },
    ),
    impostor("unbounded terms are added up", |table, state, layers| {
        found(table, state, layers, |parts, stored| {
            let fails = |part: &&Part| !stored.meets_in_64_bits(part, stored.last());
            offset(parts.iter().find(fails))
        })
    }),
    impostor(
        "a sum with an unbounded term fails",
        |table, state, layers| {
            found(table, state, layers, |parts, stored| {
                let last = stored.last();
                let fails =
                    |part: &&Part| stored.unbounded(part, last) || !stored.meets(part, last);
                offset(parts.iter().find(fails))
            })
        },
    ),
    impostor(
        "propositions are looked at before conditions",
        |table, state, layers| {
            found(table, state, layers, |parts, stored| {
                let (conditions, propositions) = by_kind(parts);
                first(&propositions, stored).or_else(|| first(&conditions, stored))
            })
        },
    ),
    impostor(
        "conditions are looked at before propositions",
        |table, state, layers| {
            found(table, state, layers, |parts, stored| {
                let (conditions, propositions) = by_kind(parts);
                first(&conditions, stored).or_else(|| first(&propositions, stored))
            })
        },
    ),
    impostor("= is one part", |table, state, layers| {
        found(table, state, layers, |parts, stored| {
            let unmet = stored.first_unmet(parts, stored.last())?;
            let whole = parts.windows(2).find(|pair| &pair[1] == unmet);
            let whole = whole.filter(|pair| are_mirrored(&pair[0], &pair[1]));
            Some(whole.map_or(unmet.offset, |pair| pair[0].offset))
        })
    }),
    impostor(
        "a part blocks where there is a plan",
        |table, state, layers| {
            let answer = blocking(table, state, layers)?;
            match (answer, goal_parts(table).last()) {
                (Blocking::Nothing, Some(part)) => Ok(blocks(part.offset)),
                _ => Ok(answer),
            }
        },
    ),
    impostor("layers are not left in memory", |table, state, layers| {
        blocking(table, state, &mut layers.to_vec())
    }),
    impostor("a refusal leaves no layers", |table, state, layers| {
        let before = layers.to_vec();
        blocking(table, state, layers).inspect_err(|_| layers.copy_from_slice(&before))
    }),
    impostor(
        "the layer that changes nothing is stored",
        |table, state, layers| {
            let answer = blocking(table, state, layers)?;
            let last = last_layer(table, state, layers);
            if let Some(last) = last.filter(|last| last.end + last.len() <= layers.len()) {
                layers.copy_within(last.clone(), last.end);
            }
            Ok(answer)
        },
    ),
    impostor(
        "the layer that changes nothing needs memory",
        |table, state, layers| {
            let answer = blocking(table, state, layers)?;
            match last_layer(table, state, layers) {
                Some(last) if last.end + last.len() > layers.len() => {
                    Err(Reason::MemoryShort.at(1))
                }
                _ => Ok(answer),
            }
        },
    ),
    impostor(
        "the number behind the layers is written",
        |table, state, layers| {
            let answer = blocking(table, state, layers)?;
            let last = last_layer(table, state, layers);
            if let Some(behind) = last.and_then(|last| layers.get_mut(last.end)) {
                *behind = 0;
            }
            Ok(answer)
        },
    ),
    impostor("every place is 0", |table, state, layers| {
        blocking(table, state, layers).map_err(at_0)
    }),
    impostor(
        "a written table is normalised first",
        |table, state, layers| match parse_table(table) {
            Ok(accepted) if accepted.kind.byte() == 0x54 => {
                blocking(&normal_form(&accepted).encode(), state, layers)
            }
            _ => blocking(table, state, layers),
        },
    ),
];

const fn impostor(trick: &'static str, blocking: FindBlocking) -> Impostor {
    Impostor {
        trick,
        engine: Calls { blocking, ..HONEST },
        kinds: &[CallKind::Blocking],
    }
}

/// The answer of an engine that looks for an offset where there is no plan.
fn found(
    table: &[u8],
    state: &[u8],
    layers: &mut [i64],
    find: impl Fn(&[Part], &Stored) -> Option<usize>,
) -> Result<Blocking, Refusal> {
    let decision = decide(table, state, layers)?;
    if decision.answer != Answer::NoPlan {
        return Ok(Blocking::Nothing);
    }
    let stored = Stored::new(table, layers, decision.layers);
    let offset = find(&goal_parts(table), &stored);
    Ok(offset.map_or(Blocking::Nothing, blocks))
}

fn blocks(offset: usize) -> Blocking {
    let offset = offset as u64;
    Blocking::Blocks { offset }
}

fn offset(part: Option<&Part>) -> Option<usize> {
    part.map(|part| part.offset)
}

/// What an honest engine finds.
fn first(parts: &[Part], stored: &Stored) -> Option<usize> {
    offset(stored.first_unmet(parts, stored.last()))
}

/// Conditions, and propositions.
fn by_kind(parts: &[Part]) -> (Vec<Part>, Vec<Part>) {
    let is_sum = |part: &Part| matches!(part.needs, Needs::Sum(..));
    parts.iter().cloned().partition(is_sum)
}

/// Whether two conditions are the halves of an =.
fn are_mirrored(one: &Part, other: &Part) -> bool {
    match (&one.needs, &other.needs) {
        (Needs::Sum(sum, _, c), Needs::Sum(negated, _, d)) => {
            let mut mirror: Vec<(usize, i64)> = sum.iter().map(|(v, w)| (v ^ 1, *w)).collect();
            mirror.sort_unstable();
            mirror == *negated && *c == -d
        }
        _ => false,
    }
}

/// The bytes of the effects that mirror others, which a written table does not have.
fn mirrored_bytes(table: &[u8]) -> usize {
    let (mut bytes, mut terms) = (0, 0);
    for (_, command) in commands(table) {
        match *command {
            [0x57, ..] => terms += command.len(),
            [0x46, _, v, ..] if v % 2 == 1 => bytes += terms + command.len(),
            _ => {}
        }
        if command[0] != 0x57 {
            terms = 0;
        }
    }
    bytes
}

/// Where the last layer stands in memory after "no plan".
fn last_layer(table: &[u8], state: &[u8], layers: &[i64]) -> Option<Range<usize>> {
    let decision = decide(table, state, &mut layers.to_vec()).ok()?;
    let [p, n, a] = room::counts(table);
    let start = p + a + n * decision.layers as usize;
    (decision.answer == Answer::NoPlan).then_some(start..start + n)
}

#[cfg(test)]
mod tests {
    use super::*;
    use crate::engine::REFERENCE;
    use crate::generate::{blocking_call, Rng};
    use crate::harness::compare;

    /// What the impostors are made of finds what the reference does.
    #[test]
    fn an_honest_search_is_the_references() {
        let honest = impostor("", |table, state, layers| {
            found(table, state, layers, first)
        });
        let mut rng = Rng::new(720);
        for _ in 0..2_000 {
            compare(&blocking_call(&mut rng), &REFERENCE, &honest.engine).unwrap();
        }
    }
}
