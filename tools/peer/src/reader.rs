//! From bytes to code, in one pass over the lines. A script with any fault is refused; which fault
//! it is the peer doesn't say.

use crate::code::{Code, Frost, Kind, Op, Place, Plain, Procedure, Read, Slot, Test, Variable};
use crate::hash::{Map, Set};
use crate::words::{self, Word, is_number_word, number, plain};

pub const LONGEST: usize = 65_536;
const MOST: usize = 64;

/// A script is refused; what is wrong was seen on this line, from 1.
pub struct Refused(pub usize);

/// A block that is open, and the places of its jumps that wait for its end.
enum Block {
    If(usize),
    Else(usize),
    While(usize),
}

#[derive(Default)]
struct Reader<'t> {
    code: Code,
    is_second: bool,
    variables: Map<Word<'t>, u8>,
    pools: Map<Word<'t>, u8>,
    procedures: Map<Word<'t>, u16>,
    /// Each line that names a procedure, with how many arguments it gives.
    uses: Vec<(u16, usize)>,
    // The procedure that is open, if there is one.
    open: Option<u16>,
    blocks: Vec<Block>,
    locals: Map<Word<'t>, Slot>,
    constants: Map<i64, Slot>,
    /// The locals that were named, and have no line that sets them so far.
    unset: Set<Slot>,
    frame: Vec<i64>,
}

/// Reads a script.
pub fn read(text: &[u8]) -> Result<Code, Refused> {
    let mut reader = Reader::default();
    let (mut number, mut is_first, mut words) = (0, true, Vec::new());
    if text.len() > LONGEST {
        return Err(Refused(0));
    }
    for line in text.split(|byte| *byte == b'\n') {
        number += 1;
        if !line.iter().all(|byte| matches!(byte, b'\t' | b'\r' | b' '..=b'~')) {
            return Err(Refused(number));
        }
        words.clear();
        words.extend(words::words_of(line));
        if words.is_empty() {
            continue;
        }
        if is_first && words == [b"lvish".as_slice(), b"2"] {
            reader.is_second = true;
        } else {
            reader.line(&words).ok_or(Refused(number))?;
        }
        is_first = false;
    }
    reader.close().ok_or(Refused(number))
}

impl<'t> Reader<'t> {
    /// Takes a line with words.
    fn line(&mut self, words: &[Word<'t>]) -> Option<()> {
        match words {
            [kind @ (b"cell" | b"set" | b"max" | b"map" | b"tally"), name] => self.variable(name, self.kind(kind)?),
            [b"pair", name, one, other] => self.variable(name, Kind::Pair([plain(one)?, plain(other)?])),
            [b"pool", name, variable] => self.pool(name, variable),
            [b"proc", name, parameters @ ..] => self.procedure(name, parameters),
            [_, ..] if self.open.is_none() => None,
            [b"freeze", to, variable, rest @ ..] => self.freeze(to, variable, rest),
            [b"if", term] => self.begin(term, Block::If),
            [b"while", term] => self.begin(term, Block::While),
            [b"else"] => self.otherwise(),
            [b"end"] => self.end(),
            _ => {
                let op = self.op(words)?;
                self.push(op)
            }
        }
    }

    /// What a line does that is one instruction.
    fn op(&mut self, words: &[Word<'t>]) -> Option<Op> {
        match words {
            [b"let", to, a] => Some(Op::Copy(self.target(to)?, self.term(a)?)),
            [b"let", to, a, sign, b] => self.sum(to, a, sign, b),
            [b"put", variable, number] => self.put(variable, None, number),
            [b"put", variable, key, number] => self.put(variable, Some(key), number),
            [b"get", to, variable, test @ ..] => self.get(to, variable, test),
            [b"fork", name, terms @ ..] => {
                let (procedure, arguments) = self.call(name, terms)?;
                Some(Op::Fork { procedure, arguments })
            }
            [b"call", name, terms @ ..] => {
                let (procedure, arguments) = self.call(name, terms)?;
                Some(Op::Call { procedure, arguments })
            }
            [b"handle", pool, name] => {
                Some(Op::Handle { pool: *self.pools.get(pool)?, procedure: self.named(name, 2)? })
            }
            _ => None,
        }
    }

    fn push(&mut self, op: Op) -> Option<()> {
        self.code.ops.push(op);
        Some(())
    }

    /// The place of the line that comes next.
    fn here(&self) -> Place {
        self.code.ops.len() as Place
    }

    fn is_name(&self, word: Word) -> bool {
        words::is_name(word) && !(self.is_second && matches!(word, b"lvish" | b"tally" | b"total"))
    }

    fn kind(&self, word: Word) -> Option<Kind> {
        match word {
            b"map" => Some(Kind::Map),
            b"tally" => self.is_second.then_some(Kind::Tally),
            _ => plain(word).map(Kind::Plain),
        }
    }

    fn variable(&mut self, name: Word<'t>, kind: Kind) -> Option<()> {
        let at = self.code.variables.len();
        let is_fine = self.code.procedures.is_empty() && at < MOST && self.is_name(name);
        self.code.variables.push(Variable { name: String::from_utf8_lossy(name).into(), kind });
        (is_fine && self.variables.insert(name, at as u8).is_none()).then_some(())
    }

    fn pool(&mut self, name: Word<'t>, variable: Word<'t>) -> Option<()> {
        let at = self.code.pools.len();
        let is_fine = self.code.procedures.is_empty() && at < MOST && self.is_name(name);
        self.code.pools.push(*self.variables.get(variable)?);
        (is_fine && self.pools.insert(name, at as u8).is_none()).then_some(())
    }

    fn procedure(&mut self, name: Word<'t>, parameters: &[Word<'t>]) -> Option<()> {
        let (procedure, entry) = (self.number_of(name)?, self.here());
        let made = &mut self.code.procedures[usize::from(procedure)];
        if self.open.is_some() || made.parameters.is_some() {
            return None;
        }
        (made.parameters, made.entry) = (Some(parameters.len()), entry);
        self.open = Some(procedure);
        self.locals.clear();
        self.constants.clear();
        for (at, name) in parameters.iter().enumerate() {
            if !self.is_name(name) || self.locals.insert(name, at as Slot).is_some() {
                return None;
            }
        }
        self.frame = vec![0; parameters.len()];
        Some(())
    }

    /// The number of a procedure, which may be declared further down.
    fn number_of(&mut self, name: Word<'t>) -> Option<u16> {
        if let Some(number) = self.procedures.get(name) {
            return Some(*number);
        }
        let number = self.code.procedures.len() as u16;
        self.code.procedures.push(Procedure::default());
        self.procedures.insert(name, number);
        (self.is_name(name) && usize::from(number) < MOST).then_some(number)
    }

    /// The number of a procedure that a line gives so many arguments.
    fn named(&mut self, name: Word<'t>, count: usize) -> Option<u16> {
        let number = self.number_of(name)?;
        self.uses.push((number, count));
        Some(number)
    }

    /// The slot of a name or a number.
    fn term(&mut self, word: Word<'t>) -> Option<Slot> {
        if is_number_word(word) {
            return self.constant(number(word)?);
        }
        if let Some(slot) = self.locals.get(word) {
            return Some(*slot);
        }
        let slot = self.local(word)?;
        self.unset.insert(slot);
        Some(slot)
    }

    fn constant(&mut self, number: i64) -> Option<Slot> {
        let frame = &mut self.frame;
        Some(*self.constants.entry(number).or_insert_with(|| {
            frame.push(number);
            (frame.len() - 1) as Slot
        }))
    }

    /// A local that wasn't named before.
    fn local(&mut self, word: Word<'t>) -> Option<Slot> {
        let slot = self.frame.len() as Slot;
        self.frame.push(0);
        self.locals.insert(word, slot);
        self.is_name(word).then_some(slot)
    }

    /// The slot of a name that a line sets.
    fn target(&mut self, word: Word<'t>) -> Option<Slot> {
        match self.locals.get(word) {
            Some(slot) => {
                if !self.unset.is_empty() {
                    self.unset.remove(slot);
                }
                Some(*slot)
            }
            None => self.local(word),
        }
    }

    fn sum(&mut self, to: Word<'t>, a: Word<'t>, sign: Word, b: Word<'t>) -> Option<Op> {
        let (to, one) = (self.target(to)?, self.term(a)?);
        let power = number(b).filter(|by| *by > 0 && by.count_ones() == 1).map(|by| by.trailing_zeros() as u16);
        match (sign, power) {
            (b"/", Some(power)) => return Some(Op::DivPower(to, one, power)),
            (b"%", Some(power)) => return Some(Op::RemPower(to, one, power)),
            _ => {}
        }
        let other = self.term(b)?;
        match sign {
            b"+" => Some(Op::Add(to, one, other)),
            b"-" => Some(Op::Sub(to, one, other)),
            b"*" => Some(Op::Mul(to, one, other)),
            b"/" => Some(Op::Div(to, one, other)),
            b"%" => Some(Op::Rem(to, one, other)),
            b"<" => Some(Op::Less(to, one, other)),
            b"=" => Some(Op::Equal(to, one, other)),
            _ => None,
        }
    }

    /// The slot of a key, and what stands at it.
    fn key(&mut self, kind: Kind, key: Option<Word<'t>>) -> Option<(Slot, Plain)> {
        match (kind, key) {
            (Kind::Plain(plain), None) => Some((self.constant(0)?, plain)),
            (Kind::Map | Kind::Tally, Some(word)) => Some((self.term(word)?, kind.at(0))),
            (Kind::Pair(_), Some(word)) if is_number_word(word) => {
                let side = number(word).filter(|side| matches!(side, 1 | 2))?;
                Some((self.constant(side)?, kind.at(side)))
            }
            _ => None,
        }
    }

    fn variable_of(&self, name: Word) -> Option<(u8, Kind)> {
        let variable = *self.variables.get(name)?;
        Some((variable, self.code.variables[usize::from(variable)].kind))
    }

    fn put(&mut self, name: Word<'t>, key: Option<Word<'t>>, number: Word<'t>) -> Option<Op> {
        let (variable, kind) = self.variable_of(name)?;
        let (key, _) = self.key(kind, key)?;
        let number = self.term(number)?;
        Some(Op::Put { variable, key, number })
    }

    fn get(&mut self, to: Word<'t>, name: Word<'t>, words: &[Word<'t>]) -> Option<Op> {
        let (variable, kind) = self.variable_of(name)?;
        let begins_test =
            |word: &Word| matches!(*word, b"any" | b"in" | b"has" | b"least") || self.is_second && *word == b"total";
        let (key, test) = match words {
            [word, ..] if begins_test(word) => (None, words),
            [key, test @ ..] => (Some(*key), test),
            [] => return None,
        };
        let read = match test {
            [b"total", total] if self.is_second && kind == Kind::Tally && key.is_none() => {
                Read { key: self.constant(0)?, test: Test::Total(self.term(total)?) }
            }
            _ => {
                let (key, plain) = self.key(kind, key)?;
                Read { key, test: self.test(plain, test)? }
            }
        };
        let to = self.target(to)?;
        self.code.reads.push(read);
        Some(Op::Get { variable, to, read: (self.code.reads.len() - 1) as Place })
    }

    fn test(&mut self, plain: Plain, words: &[Word<'t>]) -> Option<Test> {
        match (words, plain) {
            ([b"any"], Plain::Cell) => Some(Test::Any),
            ([b"has", term], Plain::Set) | ([b"least", term], Plain::Counter) => Some(Test::Is(self.term(term)?)),
            ([b"in", first, rest @ ..], _) => {
                let mut numbers = [*first].iter().chain(rest).map(|word| number(word)).collect::<Option<Vec<i64>>>()?;
                numbers.sort_unstable();
                numbers.dedup();
                match (numbers.len(), plain) {
                    (_, Plain::Cell) => Some(Test::In(numbers)),
                    (1, Plain::Counter) if !(0..=1000).contains(&number(first)?) => None,
                    (1, _) => Some(Test::Is(self.term(first)?)),
                    _ => None,
                }
            }
            _ => None,
        }
    }

    /// The procedure of a call or a fork, and where its arguments' slots begin.
    fn call(&mut self, name: Word<'t>, terms: &[Word<'t>]) -> Option<(u16, Place)> {
        let procedure = self.named(name, terms.len())?;
        let from = self.code.arguments.len() as Place;
        for term in terms {
            let slot = self.term(term)?;
            self.code.arguments.push(slot);
        }
        Some((procedure, from))
    }

    fn freeze(&mut self, to: Word<'t>, name: Word<'t>, rest: &[Word<'t>]) -> Option<()> {
        let (variable, _) = self.variable_of(name)?;
        let (rest, each) = match rest {
            [rest @ .., b"each", name] => (rest, Some(self.named(name, 2)?)),
            _ => (rest, None),
        };
        let names = match rest {
            [] => rest,
            [b"after", names @ ..] if !names.is_empty() => names,
            _ => return None,
        };
        let pools = names.iter().map(|name| self.pools.get(name).copied()).collect::<Option<Vec<u8>>>()?;
        if pools.iter().any(|pool| self.code.pools[usize::from(*pool)] != variable) {
            return None;
        }
        let to = self.target(to)?;
        self.code.frosts.push(Frost { pools, each });
        self.push(Op::Freeze { variable, to, frost: (self.code.frosts.len() - 1) as Place })?;
        each.map_or(Some(()), |_| self.push(Op::Each))
    }

    /// Opens a block, whose test jumps behind it where the term is zero.
    fn begin(&mut self, term: Word<'t>, block: fn(usize) -> Block) -> Option<()> {
        let slot = self.term(term)?;
        self.blocks.push(block(self.code.ops.len()));
        self.push(Op::Unless { slot, to: 0 })?;
        (self.blocks.len() < MOST).then_some(())
    }

    /// Lets the jump at a place go to the line that comes next.
    fn land(&mut self, at: usize) {
        let here = self.here();
        match &mut self.code.ops[at] {
            Op::Unless { to, .. } | Op::Jump(to) => *to = here,
            _ => {}
        }
    }

    fn otherwise(&mut self) -> Option<()> {
        let Some(Block::If(at)) = self.blocks.pop() else { return None };
        self.blocks.push(Block::Else(self.code.ops.len()));
        self.push(Op::Jump(0))?;
        self.land(at);
        Some(())
    }

    fn end(&mut self) -> Option<()> {
        match self.blocks.pop() {
            Some(Block::If(at) | Block::Else(at)) => self.land(at),
            Some(Block::While(at)) => {
                let Op::Unless { slot, .. } = self.code.ops[at] else { return None };
                self.push(Op::While { slot, to: (at + 1) as Place })?;
                self.land(at);
            }
            None => {
                let procedure = usize::from(self.open.take()?);
                self.code.procedures[procedure].frame = std::mem::take(&mut self.frame);
                self.push(Op::Return)?;
            }
        }
        (self.open.is_some() || self.unset.is_empty()).then_some(())
    }

    /// Looks at what only the whole script shows.
    fn close(mut self) -> Option<Code> {
        let parameters = |procedure: u16| self.code.procedures[usize::from(procedure)].parameters;
        let main = *self.procedures.get(b"main".as_slice())?;
        let are_fine = self.uses.iter().all(|(procedure, count)| parameters(*procedure) == Some(*count));
        if self.open.is_some() || parameters(main) != Some(0) || !are_fine {
            return None;
        }
        self.code.main = main;
        Some(self.code)
    }
}
