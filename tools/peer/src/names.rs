//! Tasks by number: a name is the number of its parent and one part, and is spelt where it is printed.

use crate::state::print_number;
use std::cmp::Ordering;

/// The part of a name behind its parent's, in the order of names.
#[derive(Clone, Copy, PartialEq, Eq, PartialOrd, Ord)]
pub enum Part {
    Fork(u32),
    Event { handler: u32, key: i64, number: i64 },
}

/// How a task came to be; its depth is how many parts its name has.
#[derive(Clone, Copy)]
enum Name {
    Main,
    Fork {
        parent: u32,
        number: u32,
        depth: u8,
    },
    /// A handler's task has the event of this place in the log.
    Event {
        handler: u32,
        entry: u32,
        depth: u8,
    },
}

/// A handler: who added it, as which of his, to what, and how far it has come in the log.
pub struct Handler {
    pub adder: u32,
    pub number: u32,
    pub pool: u8,
    pub variable: u8,
    pub procedure: u16,
    pub done: u32,
}

pub struct Names {
    names: Vec<Name>,
    pub handlers: Vec<Handler>,
    /// The events of each variable, in the order in which they came: key and number.
    pub logs: Vec<Vec<(i64, i64)>>,
}

impl Names {
    pub fn new(variables: usize) -> Names {
        Names { names: vec![Name::Main], handlers: Vec::new(), logs: vec![Vec::new(); variables] }
    }

    pub fn fork(&mut self, parent: u32, number: u32) -> u32 {
        self.add(Name::Fork { parent, number, depth: self.depth(parent) + 1 })
    }

    pub fn event(&mut self, handler: u32, entry: u32) -> u32 {
        let depth = self.depth(self.handlers[handler as usize].adder) + 1;
        self.add(Name::Event { handler, entry, depth })
    }

    fn add(&mut self, name: Name) -> u32 {
        self.names.push(name);
        (self.names.len() - 1) as u32
    }

    #[inline]
    pub fn depth(&self, name: u32) -> u8 {
        match self.names[name as usize] {
            Name::Main => 0,
            Name::Fork { depth, .. } | Name::Event { depth, .. } => depth,
        }
    }

    fn parent(&self, name: u32) -> u32 {
        match self.names[name as usize] {
            Name::Main => 0,
            Name::Fork { parent, .. } => parent,
            Name::Event { handler, .. } => self.handlers[handler as usize].adder,
        }
    }

    fn part(&self, name: u32) -> Part {
        match self.names[name as usize] {
            Name::Main => Part::Fork(0),
            Name::Fork { number, .. } => Part::Fork(number),
            Name::Event { handler, entry, .. } => {
                let by = &self.handlers[handler as usize];
                let (key, number) = self.logs[usize::from(by.variable)][entry as usize];
                Part::Event { handler: by.number, key, number }
            }
        }
    }

    /// Compares names part by part from `main`: a name stands before those that go on from it.
    pub fn compare(&self, one: u32, other: u32) -> Ordering {
        let (mut a, mut b) = (one, other);
        while self.depth(a) > self.depth(b) {
            a = self.parent(a);
        }
        while self.depth(b) > self.depth(a) {
            b = self.parent(b);
        }
        if a == b {
            return self.depth(one).cmp(&self.depth(other));
        }
        while self.parent(a) != self.parent(b) {
            (a, b) = (self.parent(a), self.parent(b));
        }
        self.part(a).cmp(&self.part(b))
    }

    /// Compares handlers by who added them, and then in the order in which he did.
    pub fn compare_handlers(&self, one: u32, other: u32) -> Ordering {
        let [a, b] = [one, other].map(|it| &self.handlers[it as usize]);
        self.compare(a.adder, b.adder).then(a.number.cmp(&b.number))
    }

    pub fn print(&self, name: u32, out: &mut Vec<u8>) {
        if name == 0 {
            return out.extend_from_slice(b"main");
        }
        self.print(self.parent(name), out);
        out.push(b'/');
        match self.part(name) {
            Part::Fork(number) => print_number(number.into(), out),
            Part::Event { handler, key, number } => {
                out.push(b'h');
                print_number(handler.into(), out);
                for part in [key, number] {
                    out.push(b':');
                    print_number(part, out);
                }
            }
        }
    }
}
