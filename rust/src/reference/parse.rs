//! From bytes to a table, with every check of `read` in its order.

use super::circle::has_circle;
use super::table::{
    Block, Change, Comparison, Condition, Effect, Item, Kind, Table, Term, MOVE_LIMIT,
    NUMBER_LIMIT, PROPOSITION_LIMIT, TERM_LIMIT, WEIGHT_LIMIT,
};
use crate::answer::{Reason, Refusal};
use std::ops::Range;

/// The head a call wants.
#[derive(Clone, Copy, Debug, PartialEq, Eq)]
pub enum Wanted {
    Only(Kind),
    Either,
}

/// An accepted table and where its blocks stand: block b at `ranges[b]`, the goal last.
pub struct Parsed {
    pub table: Table,
    pub ranges: Vec<Range<usize>>,
}

/// What becomes of moves that do nothing.
#[derive(Clone, Copy, Debug, PartialEq, Eq)]
enum IdleMoves {
    Refused,
    Kept,
}

/// Makes all checks of a table.
pub fn parse(bytes: &[u8], wanted: Wanted) -> Result<Parsed, Refusal> {
    checked(bytes, wanted, IdleMoves::Refused)
}

/// Makes all checks of a stored table, which may have moves that do nothing.
pub fn parse_stored(bytes: &[u8], wanted: Wanted) -> Result<Parsed, Refusal> {
    checked(bytes, wanted, IdleMoves::Kept)
}

fn checked(bytes: &[u8], wanted: Wanted, idle_moves: IdleMoves) -> Result<Parsed, Refusal> {
    if bytes.len() > length_limit(bytes, wanted) {
        return Err(Reason::TableTooLong.at(0));
    }
    let mut parser = Parser::at_head(bytes, wanted, idle_moves)?;
    while !parser.ended {
        parser.advance()?;
    }
    if parser.at < bytes.len() {
        return Err(Reason::Misplaced.at(parser.at));
    }
    let parsed = parser.finish();
    if has_circle(&parsed.table) {
        return Err(Reason::Circle.at(0));
    }
    Ok(parsed)
}

fn length_limit(bytes: &[u8], wanted: Wanted) -> usize {
    match wanted {
        Wanted::Only(kind) => kind.length_limit(),
        Wanted::Either if bytes.first() == Some(&Kind::Written.byte()) => {
            Kind::Written.length_limit()
        }
        Wanted::Either => Kind::Normal.length_limit(),
    }
}

/// The commands that may follow a head.
#[derive(Clone, Copy, Debug, PartialEq, Eq)]
enum Command {
    Move,
    Goal,
    End,
    Require,
    Add,
    Delete,
    Term,
    Condition,
    Effect,
}

impl Command {
    /// None for an unknown command and for a head, which stands at offset 0 only.
    fn from_byte(byte: u8) -> Option<Command> {
        match byte {
            0x41 => Some(Command::Move),
            0x47 => Some(Command::Goal),
            0x45 => Some(Command::End),
            0x50 => Some(Command::Require),
            0x2B => Some(Command::Add),
            0x2D => Some(Command::Delete),
            0x57 => Some(Command::Term),
            0x43 => Some(Command::Condition),
            0x46 => Some(Command::Effect),
            _ => None,
        }
    }

    fn operand_bytes(self) -> usize {
        match self {
            Command::Move | Command::Goal | Command::End => 0,
            Command::Require | Command::Add | Command::Delete => 1,
            Command::Term => 3,
            Command::Condition => 5,
            Command::Effect => 6,
        }
    }

    /// Whether the command may follow a term.
    fn continues_sum(self) -> bool {
        matches!(self, Command::Term | Command::Condition | Command::Effect)
    }
}

/// A command with its operands, all in range.
enum Decoded {
    Move,
    Goal,
    End,
    Term(Term),
    Item(Item),
}

/// Where the parser stands among the blocks.
#[derive(Clone, Copy, Debug, PartialEq, Eq)]
enum Place {
    BeforeBlocks,
    InMove,
    InGoal,
}

struct Parser<'t> {
    bytes: &'t [u8],
    idle_moves: IdleMoves,
    at: usize,
    kind: Kind,
    propositions: usize,
    variables: usize,
    moves: usize,
    place: Place,
    blocks: Vec<Block>,
    starts: Vec<usize>,
    terms: Vec<Term>,
    ended: bool,
}

impl<'t> Parser<'t> {
    /// Checks the head and stands behind it.
    fn at_head(
        bytes: &'t [u8],
        wanted: Wanted,
        idle_moves: IdleMoves,
    ) -> Result<Parser<'t>, Refusal> {
        let first = *bytes.first().ok_or(Reason::Cut.at(0))?;
        let kind = [Kind::Written, Kind::Normal]
            .into_iter()
            .find(|kind| kind.byte() == first)
            .filter(|kind| wanted == Wanted::Either || wanted == Wanted::Only(*kind))
            .ok_or(Reason::Misplaced.at(0))?;
        let counts = bytes.get(1..4).ok_or(Reason::Cut.at(0))?;
        let [propositions, variables, moves] = [0, 1, 2].map(|i| usize::from(counts[i]));
        let even = kind == Kind::Written || variables % 2 == 0;
        require(propositions <= PROPOSITION_LIMIT, 1)?;
        require(variables <= kind.variable_limit() && even, 2)?;
        require(moves <= MOVE_LIMIT, 3)?;
        Ok(Parser {
            bytes,
            idle_moves,
            at: 4,
            kind,
            propositions,
            variables,
            moves,
            place: Place::BeforeBlocks,
            blocks: Vec::new(),
            starts: Vec::new(),
            terms: Vec::new(),
            ended: false,
        })
    }

    /// Checks one command and takes it in.
    fn advance(&mut self) -> Result<(), Refusal> {
        let command = self.command()?;
        let operands = self.operands(command)?;
        self.check_move_count(command)?;
        self.check_closed_move(command)?;
        let decoded = self.decode(command, operands)?;
        self.check_names(&decoded)?;
        self.take(decoded);
        self.at += 1 + operands.len();
        Ok(())
    }

    /// The command here, if it may stand here.
    fn command(&self) -> Result<Command, Refusal> {
        let byte = *self.bytes.get(self.at).ok_or(Reason::Cut.at(self.at))?;
        Command::from_byte(byte)
            .filter(|command| self.is_placed(*command))
            .filter(|command| self.terms.is_empty() || command.continues_sum())
            .ok_or(Reason::Misplaced.at(self.at))
    }

    fn is_placed(&self, command: Command) -> bool {
        match command {
            Command::Move => true,
            Command::Goal => self.place != Place::InGoal,
            Command::End => self.place == Place::InGoal,
            Command::Require | Command::Term | Command::Condition => {
                self.place != Place::BeforeBlocks
            }
            Command::Add | Command::Delete | Command::Effect => self.place == Place::InMove,
        }
    }

    fn operands(&self, command: Command) -> Result<&'t [u8], Refusal> {
        let start = self.at + 1;
        self.bytes
            .get(start..start + command.operand_bytes())
            .ok_or(Reason::Cut.at(self.at))
    }

    fn check_move_count(&self, command: Command) -> Result<(), Refusal> {
        let counted = match command {
            Command::Move => self.place != Place::InGoal && self.blocks.len() < self.moves,
            Command::Goal => self.blocks.len() == self.moves,
            _ => true,
        };
        if counted {
            Ok(())
        } else {
            Err(Reason::MoveCount.at(self.at))
        }
    }

    /// A move does something before the next block closes it.
    fn check_closed_move(&self, command: Command) -> Result<(), Refusal> {
        let closes = matches!(command, Command::Move | Command::Goal);
        let idle = self.place == Place::InMove && self.blocks.last().is_some_and(Block::is_idle);
        if closes && idle && self.idle_moves == IdleMoves::Refused {
            Err(Reason::IdleMove.at(self.at))
        } else {
            Ok(())
        }
    }

    fn decode(&mut self, command: Command, operands: &[u8]) -> Result<Decoded, Refusal> {
        Ok(match command {
            Command::Move => Decoded::Move,
            Command::Goal => Decoded::Goal,
            Command::End => Decoded::End,
            Command::Require => Decoded::Item(Item::Require(self.proposition(operands)?)),
            Command::Add => Decoded::Item(Item::Add(self.proposition(operands)?)),
            Command::Delete => Decoded::Item(Item::Delete(self.proposition(operands)?)),
            Command::Term => Decoded::Term(self.term(operands)?),
            Command::Condition => Decoded::Item(Item::Condition(self.condition(operands)?)),
            Command::Effect => Decoded::Item(Item::Effect(self.effect(operands)?)),
        })
    }

    fn proposition(&self, operands: &[u8]) -> Result<usize, Refusal> {
        let p = usize::from(operands[0]);
        require(p < self.propositions, self.at + 1)?;
        Ok(p)
    }

    fn term(&self, operands: &[u8]) -> Result<Term, Refusal> {
        let variable = usize::from(operands[0]);
        let weight = i128::from(i16::from_be_bytes([operands[1], operands[2]]));
        let lowest = match self.kind {
            Kind::Written => -WEIGHT_LIMIT,
            Kind::Normal => 1,
        };
        require(variable < self.variables, self.at + 1)?;
        require((lowest..=WEIGHT_LIMIT).contains(&weight), self.at + 2)?;
        Ok(Term { variable, weight })
    }

    fn condition(&self, operands: &[u8]) -> Result<Condition, Refusal> {
        let comparison = Comparison::from_code(operands[0])
            .filter(|c| self.kind == Kind::Written || *c == Comparison::AtLeast)
            .ok_or(Reason::OperandRange.at(self.at + 1))?;
        let constant = constant(&operands[1..5]);
        let highest = match self.kind {
            Kind::Written => NUMBER_LIMIT,
            Kind::Normal => NUMBER_LIMIT + 1,
        };
        require((-NUMBER_LIMIT..=highest).contains(&constant), self.at + 2)?;
        Ok(Condition {
            terms: self.terms.clone(),
            comparison,
            constant,
        })
    }

    fn effect(&self, operands: &[u8]) -> Result<Effect, Refusal> {
        let change = Change::from_code(operands[0])
            .filter(|c| self.kind == Kind::Written || *c != Change::Decrease)
            .ok_or(Reason::OperandRange.at(self.at + 1))?;
        let variable = usize::from(operands[1]);
        let constant = constant(&operands[2..6]);
        require(variable < self.variables, self.at + 2)?;
        require(
            (-NUMBER_LIMIT..=NUMBER_LIMIT).contains(&constant),
            self.at + 3,
        )?;
        Ok(Effect {
            terms: self.terms.clone(),
            change,
            variable,
            constant,
        })
    }

    /// A name used again, a variable that does not rise, a ninth term.
    fn check_names(&self, decoded: &Decoded) -> Result<(), Refusal> {
        let again = match decoded {
            Decoded::Move | Decoded::Goal | Decoded::End => false,
            Decoded::Term(term) => {
                let rising = self.terms.last().is_none_or(|t| t.variable < term.variable);
                !rising || self.terms.len() == TERM_LIMIT
            }
            Decoded::Item(item) => self
                .blocks
                .last()
                .is_some_and(|block| block.items.iter().any(|i| same_name(i, item))),
        };
        if again {
            Err(Reason::NamedAgain.at(self.at))
        } else {
            Ok(())
        }
    }

    fn take(&mut self, decoded: Decoded) {
        match decoded {
            Decoded::Move => self.open_block(Place::InMove),
            Decoded::Goal => self.open_block(Place::InGoal),
            Decoded::End => self.ended = true,
            Decoded::Term(term) => self.terms.push(term),
            Decoded::Item(item) => {
                self.terms.clear();
                let block = self.blocks.last_mut().expect("items stand in a block");
                block.items.push(item);
            }
        }
    }

    fn open_block(&mut self, place: Place) {
        self.place = place;
        self.starts.push(self.at);
        self.blocks.push(Block::default());
    }

    /// The table, once 45 is read. The last block ends before that 45.
    fn finish(mut self) -> Parsed {
        let ends = self.starts.iter().skip(1).copied().chain([self.at - 1]);
        let ranges = self.starts.iter().zip(ends).map(|(s, e)| *s..e).collect();
        let goal = self.blocks.pop().expect("the goal is the last block");
        Parsed {
            table: Table {
                kind: self.kind,
                propositions: self.propositions,
                variables: self.variables,
                moves: self.blocks,
                goal,
            },
            ranges,
        }
    }
}

/// Whether two items of a block name the same thing where it may be named once.
fn same_name(one: &Item, other: &Item) -> bool {
    match (one, other) {
        (Item::Require(p), Item::Require(q)) => p == q,
        (Item::Add(p) | Item::Delete(p), Item::Add(q) | Item::Delete(q)) => p == q,
        (Item::Effect(e), Item::Effect(f)) => e.variable == f.variable,
        _ => false,
    }
}

fn constant(bytes: &[u8]) -> i128 {
    let four = bytes.try_into().expect("a constant has four bytes");
    i128::from(i32::from_be_bytes(four))
}

fn require(in_range: bool, place: usize) -> Result<(), Refusal> {
    if in_range {
        Ok(())
    } else {
        Err(Reason::OperandRange.at(place))
    }
}
