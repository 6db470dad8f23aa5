//! Tasks whose gets don't pass, filed under what they wait for: so a put asks only those that it may wake.

use crate::board::{Stack, Work};
use crate::code::{Code, Kind, Plain};
use crate::hash::Map;
use crate::state::admits;
use crate::task::{Request, Task, Wanted};
use std::collections::BTreeMap;

/// Tasks one behind the other, the newest first.
type Queue = Option<Box<Task>>;

#[derive(Default)]
pub struct Waiting {
    /// For a cell, a key of a map, or an element of a set; by side of a pair, where there are sides.
    places: [Map<i64, Queue>; 2],
    /// For a level of a counter, by side or by key of a tally, and without one for a tally's total.
    levels: BTreeMap<(Option<i64>, i64), Queue>,
}

/// The map of places that a key belongs to.
fn side(kind: Kind, key: i64) -> usize {
    usize::from(matches!(kind, Kind::Pair(_)) && key == 2)
}

/// Puts a task before those of a queue.
fn join(queue: &mut Queue, mut task: Box<Task>) {
    task.next = queue.take();
    *queue = Some(task);
}

/// Takes each task of a queue.
fn tasks(mut queue: Queue) -> impl Iterator<Item = Box<Task>> {
    std::iter::from_fn(move || {
        let mut task = queue.take()?;
        queue = task.next.take();
        Some(task)
    })
}

impl Waiting {
    /// Files a task that stands at a get.
    pub fn park(&mut self, kind: Kind, task: Box<Task>) {
        let Request::Get { key, wanted, .. } = task.request else { return };
        let places = &mut self.places[side(kind, key)];
        let queue = match (kind.at(key), wanted) {
            (_, Wanted::Total(number)) => self.levels.entry((None, number)).or_default(),
            (Plain::Counter, Wanted::Is(number)) => self.levels.entry((Some(key), number)).or_default(),
            (Plain::Set, Wanted::Is(number)) => places.entry(number).or_default(),
            _ if kind == Kind::Map => places.entry(key).or_default(),
            _ => places.entry(0).or_default(),
        };
        join(queue, task);
    }

    /// Takes those that an event lets pass, up to this number at this key; returns how many.
    #[inline]
    pub fn wake(&mut self, code: &Code, kind: Kind, (key, number): (i64, i64), made: &mut Stack) -> usize {
        let before = made.len();
        match kind.at(key) {
            Plain::Counter if self.levels.is_empty() => {}
            Plain::Counter => self.wake_levels(Some(key), number, made),
            plain => {
                let place = match plain {
                    Plain::Set => number,
                    _ if kind == Kind::Map => key,
                    _ => 0,
                };
                let places = &mut self.places[side(kind, key)];
                if !places.is_empty() {
                    // (a cell holds its number for ever: who doesn't want it never goes on)
                    let queue = places.remove(&place).into_iter().flat_map(tasks);
                    made.extend(queue.filter(|task| passes(code, task, number)).map(Work::Task));
                }
            }
        }
        made.len() - before
    }

    /// Takes those that a tally's total lets pass; returns how many.
    pub fn wake_total(&mut self, total: i64, made: &mut Stack) -> usize {
        let before = made.len();
        self.wake_levels(None, total, made);
        made.len() - before
    }

    fn wake_levels(&mut self, place: Option<i64>, number: i64, made: &mut Stack) {
        while let Some((&level, _)) = self.levels.range((place, 0)..=(place, number)).next() {
            made.extend(self.levels.remove(&level).into_iter().flat_map(tasks).map(Work::Task));
        }
    }
}

fn passes(code: &Code, task: &Task, number: i64) -> bool {
    matches!(task.request, Request::Get { wanted, .. } if admits(code, wanted, number))
}
