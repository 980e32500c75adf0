//! The circle of := effects that refusal 7 speaks of.

use crate::scan::{Code, Line, Scan};

/// A variable that contributes to the sum of a := effect, and the effect.
#[derive(Clone, Copy)]
pub struct Edge<'l> {
    pub from: usize,
    pub effect: &'l Line<'l>,
}

impl Edge<'_> {
    pub fn to(&self) -> usize {
        self.effect.index(1)
    }
}

/// The edges of a circle, in order; none if there is no circle.
pub fn find<'l>(scan: &'l Scan) -> Vec<Edge<'l>> {
    let edges = edges(scan);
    let starts = edges.iter().map(|edge| edge.from);
    let mut circles = starts.filter_map(|start| path(&edges, start, start, &mut Vec::new()));
    circles.next().unwrap_or_default()
}

fn edges<'l>(scan: &'l Scan) -> Vec<Edge<'l>> {
    let effects = scan
        .lines
        .iter()
        .filter(|line| line.form.code == Code::Effect);
    let assignments = effects.filter(|effect| effect.operand(0) == 0);
    let edges = assignments.flat_map(|effect| {
        let from = effect.contributing().map(|term| term.variable);
        from.map(move |from| Edge { from, effect })
    });
    edges.collect()
}

/// A walk from one variable to another that passes each variable once at most.
fn path<'l>(
    edges: &[Edge<'l>],
    from: usize,
    to: usize,
    seen: &mut Vec<usize>,
) -> Option<Vec<Edge<'l>>> {
    for edge in edges.iter().filter(|edge| edge.from == from) {
        if edge.to() == to {
            return Some(vec![*edge]);
        }
        if seen.contains(&edge.to()) {
            continue;
        }
        seen.push(edge.to());
        if let Some(rest) = path(edges, edge.to(), to, seen) {
            return Some([vec![*edge], rest].concat());
        }
    }
    None
}
