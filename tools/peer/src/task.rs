//! A task: its frames, and how it runs statements up to what it asks of the board next.

use crate::code::{Code, Fault, Op, Place, Plain, Slot, Test};
use crate::state::MOST_TOTAL;
use std::ops::{Index, IndexMut};
use std::sync::Arc;

/// The statements after which a task pauses.
const TURN: u32 = 1000;
const MOST_FRAMES: usize = 64;
const MOST_LEVEL: i64 = 1000;

/// The events of a frozen variable in ascending order: key and number.
pub type Events = Arc<[(i64, i64)]>;

/// What a get waits for, with the numbers that its slots held.
#[derive(Clone, Copy)]
pub enum Wanted {
    Any,
    /// One of the numbers of a read.
    In(Place),
    Is(i64),
    Total(i64),
}

pub enum Request {
    /// The task has run no statement.
    Start,
    Put {
        variable: u8,
        key: i64,
        number: i64,
    },
    Get {
        variable: u8,
        key: i64,
        wanted: Wanted,
    },
    Fork(Box<Task>),
    Handle {
        pool: u8,
        procedure: u16,
    },
    Freeze {
        variable: u8,
        frost: Place,
    },
    Pause,
    End,
    Fault(Fault),
}

impl From<Fault> for Request {
    fn from(fault: Fault) -> Request {
        Request::Fault(fault)
    }
}

/// The slots of the procedure that a task is in.
struct Frame<'t>(&'t mut [i64]);

impl Index<Slot> for Frame<'_> {
    type Output = i64;

    fn index(&self, slot: Slot) -> &i64 {
        &self.0[usize::from(slot)]
    }
}

impl IndexMut<Slot> for Frame<'_> {
    fn index_mut(&mut self, slot: Slot) -> &mut i64 {
        &mut self.0[usize::from(slot)]
    }
}

/// What is wrong where there is no quotient.
fn divided_by(number: i64) -> Fault {
    if number == 0 { Fault::Zero } else { Fault::Overflow }
}

/// A number whose shift to the right is the quotient of `number`, rounded towards zero.
#[inline]
fn toward_zero(number: i64, power: u16) -> i64 {
    number + ((number >> 63) & ((1 << power) - 1))
}

/// Where a call goes back to.
struct Caller {
    at: Place,
    base: u32,
}

/// An `each`: the events, and how many of them were called on.
struct Walk {
    events: Events,
    done: usize,
    procedure: u16,
}

pub struct Task {
    /// Its number in the board's list of names.
    pub name: u32,
    pub pool: Option<u8>,
    pub forks: u32,
    pub handlers: u32,
    pub request: Request,
    /// The one behind it, where it waits in a queue.
    pub next: Option<Box<Task>>,
    at: Place,
    to: Slot,
    base: u32,
    slots: Vec<i64>,
    callers: Vec<Caller>,
    walks: Vec<Walk>,
}

impl Task {
    /// A task that is to run a procedure, in the memory of one that has ended if there is one.
    pub fn new(code: &Code, procedure: u16, spare: &mut Vec<Box<Task>>) -> Box<Task> {
        let mut task = spare.pop().unwrap_or_else(|| Box::new(Task::empty()));
        let procedure = &code.procedures[usize::from(procedure)];
        task.slots.clear();
        task.slots.extend_from_slice(&procedure.frame);
        (task.at, task.base, task.request) = (procedure.entry, 0, Request::Start);
        (task.forks, task.handlers) = (0, 0);
        task
    }

    fn empty() -> Task {
        Task {
            name: 0,
            pool: None,
            forks: 0,
            handlers: 0,
            request: Request::Start,
            next: None,
            at: 0,
            to: 0,
            base: 0,
            slots: Vec::new(),
            callers: Vec::new(),
            walks: Vec::new(),
        }
    }

    /// Sets the parameters of a handler's task: the event that it is handed.
    #[inline]
    pub fn take_event(&mut self, (key, number): (i64, i64)) {
        self.slots[..2].copy_from_slice(&[key, number]);
    }

    /// Takes the answer to a get or a freeze.
    #[inline]
    pub fn answer(&mut self, number: i64) {
        self.slots[self.base as usize + usize::from(self.to)] = number;
    }

    /// Lets the `each` behind the freeze that is answered call a procedure on these events.
    pub fn walk(&mut self, events: Events, procedure: u16) {
        self.walks.push(Walk { events, done: 0, procedure });
    }

    /// Runs statements up to the next request.
    pub fn run(&mut self, code: &Code, spare: &mut Vec<Box<Task>>) {
        let mut left = TURN;
        self.request = loop {
            match self.run_frame(code, &mut left, spare) {
                Err(request) => break request,
                Ok(()) if left == 0 => break Request::Pause,
                Ok(()) => {}
            }
        };
    }

    /// Runs statements of the innermost frame up to a request, the end of the turn, or a call or a return.
    fn run_frame(&mut self, code: &Code, left: &mut u32, spare: &mut Vec<Box<Task>>) -> Result<(), Request> {
        let ops = &code.ops[..];
        let mut frame = Frame(&mut self.slots[self.base as usize..]);
        let (mut at, mut rest) = (usize::from(self.at), *left);
        let stop = loop {
            let op = ops[at];
            at += 1;
            match op {
                Op::Copy(to, a) => frame[to] = frame[a],
                Op::Add(to, a, b) => frame[to] = frame[a].checked_add(frame[b]).ok_or(Fault::Overflow)?,
                Op::Sub(to, a, b) => frame[to] = frame[a].checked_sub(frame[b]).ok_or(Fault::Overflow)?,
                Op::Mul(to, a, b) => frame[to] = frame[a].checked_mul(frame[b]).ok_or(Fault::Overflow)?,
                Op::Div(to, a, b) => frame[to] = frame[a].checked_div(frame[b]).ok_or_else(|| divided_by(frame[b]))?,
                Op::Rem(to, a, b) => frame[to] = frame[a].checked_rem(frame[b]).ok_or_else(|| divided_by(frame[b]))?,
                Op::DivPower(to, a, power) => frame[to] = toward_zero(frame[a], power) >> power,
                Op::RemPower(to, a, power) => frame[to] = frame[a] - (toward_zero(frame[a], power) >> power << power),
                Op::Less(to, a, b) => frame[to] = (frame[a] < frame[b]).into(),
                Op::Equal(to, a, b) => frame[to] = (frame[a] == frame[b]).into(),
                Op::Unless { slot, to } => at = if frame[slot] == 0 { to.into() } else { at },
                Op::While { slot, to } => at = if frame[slot] == 0 { at } else { to.into() },
                Op::Jump(to) => {
                    at = to.into();
                    continue;
                }
                _ => break Some(op),
            }
            rest -= 1;
            if rest == 0 {
                break None;
            }
        };
        (self.at, *left) = (at as Place, rest);
        match stop {
            None => Err(Request::Pause),
            Some(Op::Call { procedure, arguments }) => self.call(code, procedure, Some(arguments), left),
            Some(Op::Each) => self.call_each(code, left),
            Some(Op::Return) => self.give_back(),
            Some(op) => Err(self.asked(code, op, spare)),
        }
    }

    /// Opens a frame for a procedure; the caller goes on where the task is.
    fn call(&mut self, code: &Code, procedure: u16, arguments: Option<Place>, left: &mut u32) -> Result<(), Request> {
        if self.callers.len() + 1 == MOST_FRAMES {
            return Err(Fault::Deep.into());
        }
        let (from, base) = (self.base as usize, self.slots.len());
        let called = &code.procedures[usize::from(procedure)];
        self.callers.push(Caller { at: self.at, base: self.base });
        self.slots.extend_from_slice(&called.frame);
        for (at, slot) in arguments.iter().flat_map(|it| code.arguments(procedure, *it)).enumerate() {
            self.slots[base + at] = self.slots[from + usize::from(*slot)];
        }
        (self.at, self.base) = (called.entry, base as u32);
        *left -= 1;
        Ok(())
    }

    /// Calls on the next event of the innermost walk, and comes back here; or goes on.
    fn call_each(&mut self, code: &Code, left: &mut u32) -> Result<(), Request> {
        let Some(walk) = self.walks.last_mut() else { return Ok(()) };
        let Some(&(key, number)) = walk.events.get(walk.done) else {
            self.walks.pop();
            return Ok(());
        };
        walk.done += 1;
        let procedure = walk.procedure;
        self.at -= 1;
        self.call(code, procedure, None, left)?;
        self.slots[self.base as usize..][..2].copy_from_slice(&[key, number]);
        Ok(())
    }

    fn give_back(&mut self) -> Result<(), Request> {
        let caller = self.callers.pop().ok_or(Request::End)?;
        self.slots.truncate(self.base as usize);
        (self.at, self.base) = (caller.at, caller.base);
        Ok(())
    }

    /// The request of a line that asks for a step.
    fn asked(&mut self, code: &Code, op: Op, spare: &mut Vec<Box<Task>>) -> Request {
        let at = |slot: Slot| self.slots[self.base as usize + usize::from(slot)];
        match op {
            Op::Put { variable, key, number } => {
                let (key, number) = (at(key), at(number));
                let most = most_at(code, variable, key);
                within(number, most, Request::Put { variable, key, number })
            }
            Op::Get { variable, to, read } => {
                let asked = &code.reads[usize::from(read)];
                let key = at(asked.key);
                let (wanted, number, most) = match asked.test {
                    Test::Any => (Wanted::Any, 0, None),
                    Test::In(_) => (Wanted::In(read), 0, None),
                    Test::Is(slot) => (Wanted::Is(at(slot)), at(slot), most_at(code, variable, key)),
                    Test::Total(slot) => (Wanted::Total(at(slot)), at(slot), Some(MOST_TOTAL)),
                };
                self.to = to;
                within(number, most, Request::Get { variable, key, wanted })
            }
            Op::Fork { procedure, arguments } => {
                let mut child = Task::new(code, procedure, spare);
                for (to, slot) in child.slots.iter_mut().zip(code.arguments(procedure, arguments)) {
                    *to = at(*slot);
                }
                Request::Fork(child)
            }
            Op::Handle { pool, procedure } => Request::Handle { pool, procedure },
            Op::Freeze { variable, to, frost } => {
                self.to = to;
                Request::Freeze { variable, frost }
            }
            _ => Request::End,
        }
    }
}

/// The greatest number that may be put or asked for there, of counters.
fn most_at(code: &Code, variable: u8, key: i64) -> Option<i64> {
    let is_counter = code.variables[usize::from(variable)].kind.at(key) == Plain::Counter;
    is_counter.then_some(MOST_LEVEL)
}

/// A request, unless its number is out of range.
fn within(number: i64, most: Option<i64>, request: Request) -> Request {
    match most {
        Some(most) if !(0..=most).contains(&number) => Fault::Range.into(),
        _ => request,
    }
}
