//! What calls of `rewrite` have to tell apart, counted.

use super::Shares;
use crate::call::Call;
use crate::generate::rewritten_length;
use crate::reference::parse_stored_table;
use crate::reference::table::{Block, Kind, Table, MOVE_LIMIT};

impl Shares {
    /// Takes note of a call.
    pub(super) fn add_rewriting(&mut self, call: &Call) {
        let Ok(stored) = parse_stored_table(&call.table) else {
            return self.add_one("a refused table", true);
        };
        let idle: Vec<bool> = stored.moves.iter().map(Block::is_idle).collect();
        self.add_places(&idle);
        self.add_contents(&stored);
        self.add_rooms(call, rewritten_length(&call.table));
    }

    /// Where the moves stand that do nothing.
    fn add_places(&mut self, idle: &[bool]) {
        let some = idle.contains(&true);
        let others = idle.contains(&false);
        let in_a_row = idle.windows(2).any(|pair| pair == [true, true]);
        let between = idle.windows(3).any(|three| three == [false, true, false]);
        self.add_one("no move does nothing", !some);
        self.add_one("all moves do nothing", some && !others);
        self.add_one("the first does nothing", others && idle[0]);
        self.add_one("the last does nothing", others && idle[idle.len() - 1]);
        self.add_one("several in a row", others && in_a_row);
        self.add_one("one between others", between);
        self.add_one("64 moves", some && idle.len() == MOVE_LIMIT);
    }

    /// What the moves have that do nothing.
    fn add_contents(&mut self, stored: &Table) {
        let idle = stored.moves.iter().filter(|block| block.is_idle());
        let counts: Vec<(usize, usize)> = idle
            .map(|block| (block.required().count(), block.conditions().count()))
            .collect();
        let any = |kind: fn(&(usize, usize)) -> bool| counts.iter().any(kind);
        self.add_one("nothing at all", any(|counts| *counts == (0, 0)));
        self.add_one("propositions alone", any(|(p, s)| *p > 0 && *s == 0));
        self.add_one("sums alone", any(|(p, s)| *p == 0 && *s > 0));
        self.add_one("both", any(|(p, s)| *p > 0 && *s > 0));
        let some = !counts.is_empty();
        self.add_one("written", some && stored.kind == Kind::Written);
        self.add_one("normal", some && stored.kind == Kind::Normal);
    }

    /// Lengths of the output beside that of the result.
    fn add_rooms(&mut self, call: &Call, length: usize) {
        self.add_one("no room", call.room == 0);
        self.add_one("one byte short", call.room + 1 == length);
        self.add_one("just enough", call.room == length);
        self.add_one("bytes behind", call.room > length);
        let fits = (length..call.table.len()).contains(&call.room);
        self.add_one("enough, and shorter than the table", fits);
    }
}
