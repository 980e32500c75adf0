//! The commands of a table as they stand in its bytes, read without any check of their own:
//! whether the table is accepted is for the engine to say.

/// What a command is.
#[derive(Clone, Copy, Debug, PartialEq, Eq)]
pub enum Code {
    Head,
    Move,
    Goal,
    End,
    Needs,
    Adds,
    Deletes,
    Term,
    Condition,
    Effect,
}

/// A command's byte, its name in words, and its operands with their bytes.
#[derive(Debug)]
pub struct Form {
    pub byte: u8,
    pub code: Code,
    pub name: &'static str,
    pub operands: &'static [(&'static str, usize)],
}

const fn form(
    byte: u8,
    code: Code,
    name: &'static str,
    operands: &'static [(&'static str, usize)],
) -> Form {
    Form {
        byte,
        code,
        name,
        operands,
    }
}

const WRITTEN: u8 = 0x54;
pub const NORMAL: u8 = 0x4E;
/// Ends a table.
pub const END: u8 = 0x45;

const FORMS: [Form; 11] = [
    form(
        WRITTEN,
        Code::Head,
        "head of a written table",
        &[("P", 1), ("V", 1), ("A", 1)],
    ),
    form(
        NORMAL,
        Code::Head,
        "head of a normal table",
        &[("P", 1), ("N", 1), ("A", 1)],
    ),
    form(0x41, Code::Move, "opens a move", &[]),
    form(0x47, Code::Goal, "opens the goal", &[]),
    form(END, Code::End, "ends the table", &[]),
    form(0x50, Code::Needs, "needs a proposition", &[("p", 1)]),
    form(0x2B, Code::Adds, "adds a proposition", &[("p", 1)]),
    form(0x2D, Code::Deletes, "deletes a proposition", &[("p", 1)]),
    form(0x57, Code::Term, "term", &[("v", 1), ("w", 2)]),
    form(0x43, Code::Condition, "condition", &[("o", 1), ("c", 4)]),
    form(
        0x46,
        Code::Effect,
        "effect",
        &[("k", 1), ("v", 1), ("c", 4)],
    ),
];

impl Form {
    pub fn of(byte: u8) -> Option<&'static Form> {
        FORMS.iter().find(|form| form.byte == byte)
    }

    /// The bytes of all operands.
    pub fn width(&self) -> usize {
        self.operands.iter().map(|(_, width)| width).sum()
    }
}

/// A move by its number, or the goal.
#[derive(Clone, Copy, Debug, PartialEq, Eq)]
pub enum Block {
    Move(usize),
    Goal,
}

#[derive(Clone, Copy, Debug)]
pub struct Term {
    pub variable: usize,
    pub weight: i64,
}

/// One command where it stands.
#[derive(Debug)]
pub struct Line<'t> {
    /// Its offset.
    pub at: usize,
    pub form: &'static Form,
    /// The command's byte and its operands.
    pub bytes: &'t [u8],
    /// The block that it opens or stands in; none before the first.
    pub block: Option<Block>,
    /// The terms before it that are open: of a condition or an effect, its sum.
    pub terms: Vec<Term>,
}

impl Line<'_> {
    pub fn end(&self) -> usize {
        self.at + self.bytes.len()
    }

    /// Where in the command's bytes operand i stands.
    pub fn operand_start(&self, i: usize) -> usize {
        let before = &self.form.operands[..i];
        1 + before.iter().map(|(_, width)| width).sum::<usize>()
    }

    /// Operand i; those of more than one byte are signed.
    pub fn operand(&self, i: usize) -> i64 {
        let start = self.operand_start(i);
        let bytes = &self.bytes[start..start + self.form.operands[i].1];
        match bytes {
            [a, b] => i16::from_be_bytes([*a, *b]).into(),
            [a, b, c, d] => i32::from_be_bytes([*a, *b, *c, *d]).into(),
            _ => bytes[0].into(),
        }
    }

    /// The terms of its sum that contribute: those whose weight is not 0.
    pub fn contributing(&self) -> impl Iterator<Item = &Term> {
        self.terms.iter().filter(|term| term.weight != 0)
    }

    /// An operand that is a name's number or a count.
    pub fn index(&self, i: usize) -> usize {
        self.operand(i) as usize
    }
}

/// The commands of a table, up to 45 or as far as they can be told apart.
pub struct Scan<'t> {
    pub table: &'t [u8],
    pub lines: Vec<Line<'t>>,
}

impl<'t> Scan<'t> {
    pub fn of(table: &'t [u8]) -> Scan<'t> {
        let mut scan = Scan {
            table,
            lines: Vec::new(),
        };
        while let Some(line) = scan.next() {
            scan.lines.push(line);
        }
        scan
    }

    fn next(&self) -> Option<Line<'t>> {
        let at = self.end();
        let form = Form::of(*self.table.get(at)?)?;
        let bytes = self.table.get(at..at + 1 + form.width())?;
        let last = self.lines.last();
        let begins = last.is_none() && form.code == Code::Head;
        let goes_on = last.is_some_and(|last| last.form.code != Code::End);
        (begins || goes_on).then(|| Line {
            at,
            form,
            bytes,
            block: next_block(last.and_then(|last| last.block), form.code),
            terms: last.map_or_else(Vec::new, terms_behind),
        })
    }

    /// Where the commands end.
    pub fn end(&self) -> usize {
        self.lines.last().map_or(0, Line::end)
    }

    pub fn is_normal(&self) -> bool {
        self.table.first() == Some(&NORMAL)
    }

    /// The head's counts: propositions, variables, moves.
    pub fn counts(&self) -> [usize; 3] {
        let head = self.lines.first();
        [0, 1, 2].map(|i| head.map_or(0, |head| head.index(i)))
    }

    /// The commands of a block, from its opening on.
    fn block(&self, block: Block) -> impl Iterator<Item = &Line<'t>> {
        let inside = move |line: &&Line| line.block == Some(block) && line.form.code != Code::End;
        self.lines.iter().filter(inside)
    }

    pub fn opening(&self, block: Block) -> Option<&Line<'t>> {
        self.block(block).next()
    }

    /// The bytes of a block, up to what opens the next one or ends the table.
    pub fn bytes(&self, block: Block) -> &'t [u8] {
        let start = self.opening(block).map_or(0, |line| line.at);
        let end = self.block(block).last().map_or(0, Line::end);
        &self.table[start..end]
    }

    /// The commands of a block that say something by themselves: no terms, and not its opening.
    pub fn items(&self, block: Block) -> impl Iterator<Item = &Line<'t>> {
        let opens_or_adds_up = |code| matches!(code, Code::Move | Code::Goal | Code::Term);
        self.block(block)
            .filter(move |line| !opens_or_adds_up(line.form.code))
    }

    /// Whether a block adds, deletes or changes something.
    pub fn has_effect(&self, block: Block) -> bool {
        let does = |code| matches!(code, Code::Adds | Code::Deletes | Code::Effect);
        self.items(block).any(|line| does(line.form.code))
    }
}

fn next_block(block: Option<Block>, code: Code) -> Option<Block> {
    match (code, block) {
        (Code::Move, Some(Block::Move(b))) => Some(Block::Move(b + 1)),
        (Code::Move, None) => Some(Block::Move(0)),
        (Code::Goal, _) => Some(Block::Goal),
        _ => block,
    }
}

/// The terms that are open behind a command.
fn terms_behind(line: &Line) -> Vec<Term> {
    if line.form.code != Code::Term {
        return Vec::new();
    }
    let mut terms = line.terms.clone();
    terms.push(Term {
        variable: line.index(0),
        weight: line.operand(1),
    });
    terms
}
