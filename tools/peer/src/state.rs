//! What a variable holds: joined in place, read through a threshold, printed at the end.

use crate::code::{Code, Kind, Plain, Test};
use crate::hash::{Map, Set};
use crate::task::Wanted;
use std::collections::hash_map::Entry;

pub const MOST_TOTAL: i64 = 10_000;

pub enum State {
    Cell(Option<i64>),
    Set(Set<i64>),
    Counter(i64),
    Map(Map<i64, i64>),
    Tally { amounts: Map<i64, i64>, total: i64 },
    Pair(Box<[State; 2]>),
}

/// What a join adds.
pub enum Growth {
    Nothing,
    /// Events of these numbers, from the first to the last.
    Events(i64, i64),
    /// No state has both.
    Conflict,
}

impl Growth {
    fn is_same(is_same: bool) -> Growth {
        if is_same { Growth::Nothing } else { Growth::Conflict }
    }

    fn up_to(level: i64, number: i64) -> Growth {
        if level < number { Growth::Events(level + 1, number) } else { Growth::Nothing }
    }
}

impl State {
    pub fn new(kind: Kind) -> State {
        match kind {
            Kind::Plain(Plain::Cell) => State::Cell(None),
            Kind::Plain(Plain::Set) => State::Set(Set::default()),
            Kind::Plain(Plain::Counter) => State::Counter(0),
            Kind::Map => State::Map(Map::default()),
            Kind::Tally => State::Tally { amounts: Map::default(), total: 0 },
            Kind::Pair(sides) => State::Pair(Box::new(sides.map(|side| State::new(Kind::Plain(side))))),
        }
    }

    /// Joins a number, at a key.
    #[inline]
    pub fn join(&mut self, key: i64, number: i64) -> Growth {
        match self {
            State::Cell(Some(held)) => Growth::is_same(*held == number),
            State::Cell(held) => {
                *held = Some(number);
                Growth::Events(number, number)
            }
            State::Set(elements) => match elements.insert(number) {
                true => Growth::Events(number, number),
                false => Growth::Nothing,
            },
            State::Counter(level) => {
                let growth = Growth::up_to(*level, number);
                *level = number.max(*level);
                growth
            }
            State::Map(cells) => match cells.entry(key) {
                Entry::Occupied(held) => Growth::is_same(*held.get() == number),
                Entry::Vacant(cell) => {
                    cell.insert(number);
                    Growth::Events(number, number)
                }
            },
            State::Tally { amounts, total } => {
                let held = amounts.get(&key).copied().unwrap_or(0);
                let growth = Growth::up_to(held, number);
                if let Growth::Events(..) = growth {
                    *total += number - held;
                    amounts.insert(key, number);
                }
                if *total > MOST_TOTAL { Growth::Conflict } else { growth }
            }
            State::Pair(sides) => sides[usize::from(key == 2)].join(0, number),
        }
    }

    /// The answer to a get, if it passes.
    #[inline]
    pub fn read(&self, code: &Code, key: i64, wanted: Wanted) -> Option<i64> {
        match (self, wanted) {
            (State::Cell(held), _) => held.filter(|number| admits(code, wanted, *number)),
            (State::Map(cells), _) => cells.get(&key).copied().filter(|number| admits(code, wanted, *number)),
            (State::Set(elements), Wanted::Is(number)) => elements.contains(&number).then_some(number),
            (State::Counter(level), Wanted::Is(number)) => (number <= *level).then_some(number),
            (State::Tally { total, .. }, Wanted::Total(number)) => (number <= *total).then_some(number),
            (State::Tally { amounts, .. }, Wanted::Is(number)) => {
                (number <= amounts.get(&key).copied().unwrap_or(0)).then_some(number)
            }
            (State::Pair(sides), _) => sides[usize::from(key == 2)].read(code, 0, wanted),
            _ => None,
        }
    }

    pub fn print(&self, out: &mut Vec<u8>) {
        match self {
            State::Cell(None) => out.extend_from_slice(b"empty"),
            State::Cell(Some(number)) | State::Counter(number) => print_number(*number, out),
            State::Set(elements) => {
                let mut elements: Vec<i64> = elements.iter().copied().collect();
                elements.sort_unstable();
                print_list(&elements, out, |element, out| print_number(*element, out));
            }
            State::Map(entries) | State::Tally { amounts: entries, .. } => {
                let mut entries: Vec<(i64, i64)> = entries.iter().map(|(key, number)| (*key, *number)).collect();
                entries.sort_unstable();
                print_list(&entries, out, |(key, number), out| {
                    print_number(*key, out);
                    out.push(b':');
                    print_number(*number, out);
                });
            }
            State::Pair(sides) => {
                out.push(b'(');
                sides[0].print(out);
                out.extend_from_slice(b", ");
                sides[1].print(out);
                out.push(b')');
            }
        }
    }
}

/// Whether the number of a cell passes.
#[inline]
pub fn admits(code: &Code, wanted: Wanted, number: i64) -> bool {
    match wanted {
        Wanted::In(read) => {
            matches!(&code.reads[usize::from(read)].test, Test::In(numbers) if numbers.binary_search(&number).is_ok())
        }
        _ => true,
    }
}

fn print_list<T>(items: &[T], out: &mut Vec<u8>, print: impl Fn(&T, &mut Vec<u8>)) {
    out.push(b'{');
    for (at, item) in items.iter().enumerate() {
        if at > 0 {
            out.push(b' ');
        }
        print(item, out);
    }
    out.push(b'}');
}

pub fn print_number(number: i64, out: &mut Vec<u8>) {
    let (mut digits, mut at, mut rest) = ([0; 20], 20, number.unsigned_abs());
    loop {
        at -= 1;
        digits[at] = b'0' + (rest % 10) as u8;
        rest /= 10;
        if rest == 0 {
            break;
        }
    }
    if number < 0 {
        out.push(b'-');
    }
    out.extend_from_slice(&digits[at..]);
}
