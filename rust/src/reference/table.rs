//! A table as data, and its bytes.

/// The two kinds of table.
#[derive(Clone, Copy, Debug, PartialEq, Eq)]
pub enum Kind {
    Written,
    Normal,
}

impl Kind {
    /// The head command.
    pub fn byte(self) -> u8 {
        match self {
            Kind::Written => 0x54,
            Kind::Normal => 0x4E,
        }
    }

    /// The most bytes a table of this kind may have.
    pub fn length_limit(self) -> usize {
        match self {
            Kind::Written => 32_000,
            Kind::Normal => 64_000,
        }
    }

    /// The most variables a table of this kind may have.
    pub fn variable_limit(self) -> usize {
        match self {
            Kind::Written => 16,
            Kind::Normal => 32,
        }
    }
}

pub const PROPOSITION_LIMIT: usize = 120;
pub const MOVE_LIMIT: usize = 64;
pub const TERM_LIMIT: usize = 8;
pub const WEIGHT_LIMIT: i128 = 1_000;
/// Bound of constants, of state values and of the results of a step.
pub const NUMBER_LIMIT: i128 = 1_000_000;

/// One weighted variable of a sum. In a written table the weight may be 0.
#[derive(Clone, Copy, Debug, PartialEq, Eq)]
pub struct Term {
    pub variable: usize,
    pub weight: i128,
}

/// The terms that contribute to their sum: those of weight 0 do not.
pub fn contributing(terms: &[Term]) -> impl Iterator<Item = &Term> {
    terms.iter().filter(|term| term.weight != 0)
}

#[derive(Clone, Copy, Debug, PartialEq, Eq)]
pub enum Comparison {
    AtLeast,
    Above,
    AtMost,
    Below,
    Equal,
}

impl Comparison {
    pub const ALL: [Comparison; 5] = [
        Comparison::AtLeast,
        Comparison::Above,
        Comparison::AtMost,
        Comparison::Below,
        Comparison::Equal,
    ];

    pub fn from_code(code: u8) -> Option<Comparison> {
        Self::ALL.get(usize::from(code)).copied()
    }

    pub fn code(self) -> u8 {
        self as u8
    }
}

/// The sum of the terms compared with the constant.
#[derive(Clone, Debug, PartialEq, Eq)]
pub struct Condition {
    pub terms: Vec<Term>,
    pub comparison: Comparison,
    pub constant: i128,
}

#[derive(Clone, Copy, Debug, PartialEq, Eq)]
pub enum Change {
    Assign,
    Increase,
    Decrease,
}

impl Change {
    pub const ALL: [Change; 3] = [Change::Assign, Change::Increase, Change::Decrease];

    pub fn from_code(code: u8) -> Option<Change> {
        Self::ALL.get(usize::from(code)).copied()
    }

    pub fn code(self) -> u8 {
        self as u8
    }
}

/// A change of one variable by the value: the sum of the terms plus the constant.
#[derive(Clone, Debug, PartialEq, Eq)]
pub struct Effect {
    pub terms: Vec<Term>,
    pub change: Change,
    pub variable: usize,
    pub constant: i128,
}

/// One entry of a block, in the order of the table.
#[derive(Clone, Debug, PartialEq, Eq)]
pub enum Item {
    Require(usize),
    Add(usize),
    Delete(usize),
    Condition(Condition),
    Effect(Effect),
}

impl Item {
    /// Whether it is a 2B, a 2D or a 46, whatever it does to a state.
    pub fn is_change(&self) -> bool {
        matches!(self, Item::Add(_) | Item::Delete(_) | Item::Effect(_))
    }

    /// The terms of a condition or of an effect.
    pub fn terms_mut(&mut self) -> Option<&mut Vec<Term>> {
        match self {
            Item::Condition(condition) => Some(&mut condition.terms),
            Item::Effect(effect) => Some(&mut effect.terms),
            Item::Require(_) | Item::Add(_) | Item::Delete(_) => None,
        }
    }
}

/// The contents of a move or of the goal.
#[derive(Clone, Debug, Default, PartialEq, Eq)]
pub struct Block {
    pub items: Vec<Item>,
}

impl Block {
    /// Whether it has neither 2B, 2D nor 46: as a move it does nothing.
    pub fn is_idle(&self) -> bool {
        !self.items.iter().any(Item::is_change)
    }

    pub fn required(&self) -> impl Iterator<Item = usize> + '_ {
        self.items.iter().filter_map(|item| match item {
            Item::Require(p) => Some(*p),
            _ => None,
        })
    }

    pub fn added(&self) -> impl Iterator<Item = usize> + '_ {
        self.items.iter().filter_map(|item| match item {
            Item::Add(p) => Some(*p),
            _ => None,
        })
    }

    pub fn deleted(&self) -> impl Iterator<Item = usize> + '_ {
        self.items.iter().filter_map(|item| match item {
            Item::Delete(p) => Some(*p),
            _ => None,
        })
    }

    pub fn conditions(&self) -> impl Iterator<Item = &Condition> {
        self.items.iter().filter_map(|item| match item {
            Item::Condition(condition) => Some(condition),
            _ => None,
        })
    }

    pub fn effects(&self) -> impl Iterator<Item = &Effect> {
        self.items.iter().filter_map(|item| match item {
            Item::Effect(effect) => Some(effect),
            _ => None,
        })
    }
}

#[derive(Clone, Debug, PartialEq, Eq)]
pub struct Table {
    pub kind: Kind,
    pub propositions: usize,
    pub variables: usize,
    pub moves: Vec<Block>,
    pub goal: Block,
}

impl Table {
    /// P, V or N, and A.
    pub fn counts(&self) -> [usize; 3] {
        [self.propositions, self.variables, self.moves.len()]
    }

    /// How many values a state has: one for each written variable.
    pub fn state_values(&self) -> usize {
        match self.kind {
            Kind::Written => self.variables,
            Kind::Normal => self.variables / 2,
        }
    }

    /// How many bytes a state has.
    pub fn state_length(&self) -> usize {
        self.propositions + 4 * self.state_values()
    }

    /// The moves, then the goal.
    pub fn blocks_mut(&mut self) -> impl Iterator<Item = &mut Block> {
        self.moves.iter_mut().chain([&mut self.goal])
    }

    /// The bytes of the table.
    pub fn encode(&self) -> Vec<u8> {
        let mut bytes = vec![
            self.kind.byte(),
            byte(self.propositions),
            byte(self.variables),
            byte(self.moves.len()),
        ];
        for block in &self.moves {
            bytes.push(0x41);
            encode_items(&block.items, &mut bytes);
        }
        bytes.push(0x47);
        encode_items(&self.goal.items, &mut bytes);
        bytes.push(0x45);
        bytes
    }
}

fn encode_items(items: &[Item], bytes: &mut Vec<u8>) {
    for item in items {
        match item {
            Item::Require(p) => bytes.extend([0x50, byte(*p)]),
            Item::Add(p) => bytes.extend([0x2B, byte(*p)]),
            Item::Delete(p) => bytes.extend([0x2D, byte(*p)]),
            Item::Condition(condition) => encode_condition(condition, bytes),
            Item::Effect(effect) => encode_effect(effect, bytes),
        }
    }
}

fn encode_condition(condition: &Condition, bytes: &mut Vec<u8>) {
    encode_terms(&condition.terms, bytes);
    bytes.extend([0x43, condition.comparison.code()]);
    bytes.extend(four_bytes(condition.constant));
}

fn encode_effect(effect: &Effect, bytes: &mut Vec<u8>) {
    encode_terms(&effect.terms, bytes);
    bytes.extend([0x46, effect.change.code(), byte(effect.variable)]);
    bytes.extend(four_bytes(effect.constant));
}

fn encode_terms(terms: &[Term], bytes: &mut Vec<u8>) {
    for term in terms {
        let weight = i16::try_from(term.weight).expect("a weight has two bytes");
        bytes.extend([0x57, byte(term.variable)]);
        bytes.extend(weight.to_be_bytes());
    }
}

fn byte(count: usize) -> u8 {
    u8::try_from(count).expect("a count has one byte")
}

/// A constant or a state value as it stands in bytes.
pub fn four_bytes(number: i128) -> [u8; 4] {
    i32::try_from(number)
        .expect("a number has four bytes")
        .to_be_bytes()
}
