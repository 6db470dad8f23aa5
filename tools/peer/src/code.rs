//! Flat code: what a script's procedures do, line by line, on numbered slots.
//!
//! A frame holds the locals of a procedure and its constants, each once: so every operand is a
//! slot. A frame begins as a copy of its procedure's `frame`, and arguments replace the first slots.
//! A script has at most 65,536 bytes, and each word takes two: so 16 bits count anything in it.

/// What keeps a step from being made, and ends the run.
#[derive(Clone, Copy, Debug, PartialEq, Eq)]
pub enum Fault {
    Conflict,
    Frozen,
    Late,
    Overflow,
    Zero,
    Range,
    Deep,
}

/// The kinds that a side of a pair may have.
#[derive(Clone, Copy, Debug, PartialEq, Eq)]
pub enum Plain {
    Cell,
    Set,
    Counter,
}

#[derive(Clone, Copy, Debug, PartialEq, Eq)]
pub enum Kind {
    Plain(Plain),
    Map,
    Tally,
    Pair([Plain; 2]),
}

impl Kind {
    /// What is written and read at a key: a map has cells, a tally counters.
    pub fn at(self, key: i64) -> Plain {
        match self {
            Kind::Plain(plain) => plain,
            Kind::Map => Plain::Cell,
            Kind::Tally => Plain::Counter,
            Kind::Pair(sides) => sides[usize::from(key == 2)],
        }
    }
}

pub type Slot = u16;
pub type Place = u16;

/// One line. Where a slot `to` is set, it is the first. `Copy` to `While` count as statements.
#[derive(Clone, Copy)]
pub enum Op {
    Copy(Slot, Slot),
    Add(Slot, Slot, Slot),
    Sub(Slot, Slot, Slot),
    Mul(Slot, Slot, Slot),
    Div(Slot, Slot, Slot),
    Rem(Slot, Slot, Slot),
    /// Divided by two to the power of the last number.
    DivPower(Slot, Slot, u16),
    RemPower(Slot, Slot, u16),
    Less(Slot, Slot, Slot),
    Equal(Slot, Slot, Slot),
    /// Goes on at `to` where the slot is zero.
    Unless {
        slot: Slot,
        to: Place,
    },
    /// Goes on at `to` where the slot isn't zero.
    While {
        slot: Slot,
        to: Place,
    },
    Jump(Place),
    /// The slots of a call's arguments begin at this place of `arguments`.
    Call {
        procedure: u16,
        arguments: Place,
    },
    Fork {
        procedure: u16,
        arguments: Place,
    },
    Return,
    Put {
        variable: u8,
        key: Slot,
        number: Slot,
    },
    Get {
        variable: u8,
        to: Slot,
        read: Place,
    },
    Handle {
        pool: u8,
        procedure: u16,
    },
    Freeze {
        variable: u8,
        to: Slot,
        frost: Place,
    },
    /// Calls a procedure on the next event of the freeze before it, until there is none.
    Each,
}

const _: () = assert!(size_of::<Op>() == 8);

/// What a `get` waits for; `key` is a slot, with zero in it where the variable has no keys.
pub struct Read {
    pub key: Slot,
    pub test: Test,
}

pub enum Test {
    Any,
    /// One of these numbers, which ascend.
    In(Vec<i64>),
    /// An element of a set, or a level of a counter; of a cell, the one number.
    Is(Slot),
    Total(Slot),
}

/// What a `freeze` waits for, and the procedure that it calls on each event.
pub struct Frost {
    pub pools: Vec<u8>,
    pub each: Option<u16>,
}

#[derive(Default)]
pub struct Procedure {
    pub entry: Place,
    pub parameters: Option<usize>,
    pub frame: Vec<i64>,
}

pub struct Variable {
    pub name: String,
    pub kind: Kind,
}

#[derive(Default)]
pub struct Code {
    pub ops: Vec<Op>,
    pub arguments: Vec<Slot>,
    pub reads: Vec<Read>,
    pub frosts: Vec<Frost>,
    pub procedures: Vec<Procedure>,
    pub variables: Vec<Variable>,
    /// The variable of each pool.
    pub pools: Vec<u8>,
    pub main: u16,
}

impl Code {
    /// The slots of the arguments of a call or a fork.
    #[inline]
    pub fn arguments(&self, procedure: u16, from: Place) -> &[Slot] {
        let count = self.procedures[usize::from(procedure)].parameters.unwrap_or(0);
        &self.arguments[usize::from(from)..][..count]
    }
}
