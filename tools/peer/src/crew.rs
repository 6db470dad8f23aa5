//! Workers: each runs tasks between their steps by itself, and has the board for one step at a time.

use crate::board::{Board, Next, Stack, Work};
use crate::code::Code;
use crate::task::{Request, Task};
use std::sync::{Condvar, Mutex, MutexGuard, PoisonError};
use std::thread;

/// Where a worker finds the board, and work when it has none.
trait Desk<'c> {
    fn with<T>(&mut self, stack: &mut Stack, call: impl FnOnce(&mut Board<'c>, &mut Stack) -> T) -> T;
    fn next(&mut self, stack: &mut Stack) -> Option<Work>;
}

/// One worker alone needs no lock, and is done when it has no work.
struct Alone<'c>(Board<'c>);

impl<'c> Desk<'c> for Alone<'c> {
    fn with<T>(&mut self, stack: &mut Stack, call: impl FnOnce(&mut Board<'c>, &mut Stack) -> T) -> T {
        call(&mut self.0, stack)
    }

    fn next(&mut self, stack: &mut Stack) -> Option<Work> {
        stack.pop_back()
    }
}

struct Room<'c> {
    board: Board<'c>,
    /// Work that a worker has left for one that has none.
    offered: Stack,
    /// How many workers have none.
    idle: usize,
}

struct Shared<'c> {
    room: Mutex<Room<'c>>,
    bell: Condvar,
}

impl<'c> Shared<'c> {
    fn enter(&self) -> MutexGuard<'_, Room<'c>> {
        self.room.lock().unwrap_or_else(PoisonError::into_inner)
    }
}

impl<'c> Desk<'c> for &Shared<'c> {
    fn with<T>(&mut self, stack: &mut Stack, call: impl FnOnce(&mut Board<'c>, &mut Stack) -> T) -> T {
        let mut room = self.enter();
        let answer = call(&mut room.board, stack);
        while room.offered.len() < room.idle {
            let Some(oldest) = stack.pop_front() else { break };
            room.offered.push_back(oldest);
            self.bell.notify_one();
        }
        if room.board.outcome.is_some() {
            self.bell.notify_all();
        }
        answer
    }

    fn next(&mut self, stack: &mut Stack) -> Option<Work> {
        if let Some(newest) = stack.pop_back() {
            return Some(newest);
        }
        let mut room = self.enter();
        room.idle += 1;
        while room.board.outcome.is_none() && room.offered.is_empty() {
            room = self.bell.wait(room).unwrap_or_else(PoisonError::into_inner);
        }
        room.idle -= 1;
        if room.board.outcome.is_none() { room.offered.pop_front() } else { None }
    }
}

/// Works until there is nothing to do, or the run is over.
fn work<'c>(desk: &mut impl Desk<'c>, code: &Code, mut stack: Stack) {
    let mut spare = Vec::new();
    while let Some(work) = desk.next(&mut stack) {
        let task = match work {
            Work::Task(task) => task,
            Work::Handler(handler) => {
                match desk.with(&mut stack, |board, stack| board.hand(handler, &mut spare, stack)) {
                    None => break,
                    Some((task, has_more)) => {
                        if has_more {
                            stack.push_back(Work::Handler(handler));
                        }
                        task
                    }
                }
            }
        };
        if !go_on(desk, code, task, &mut stack, &mut spare) {
            break;
        }
    }
}

/// Goes on with a task until it ends or waits; returns whether the run goes on.
fn go_on<'c>(
    desk: &mut impl Desk<'c>,
    code: &Code,
    mut task: Box<Task>,
    stack: &mut Stack,
    spare: &mut Vec<Box<Task>>,
) -> bool {
    if matches!(task.request, Request::Start) {
        task.run(code, spare);
    }
    loop {
        match desk.with(stack, |board, stack| board.step(task, stack)) {
            Next::Go(it) => task = it,
            Next::Ended(it) => {
                spare.push(it);
                return true;
            }
            Next::Parked => return true,
            Next::Over => return false,
        }
        task.run(code, spare);
    }
}

/// Runs a script by so many workers, to its end, an error or the end of the budget.
pub fn run(code: &Code, workers: usize, budget: usize) -> Board<'_> {
    let board = Board::new(code, budget);
    let first = Stack::from([Work::Task(Task::new(code, code.main, &mut Vec::new()))]);
    if workers == 1 {
        let mut alone = Alone(board);
        work(&mut alone, code, first);
        return alone.0;
    }
    let room = Room { board, offered: Stack::new(), idle: 0 };
    let shared = Shared { room: Mutex::new(room), bell: Condvar::new() };
    thread::scope(|scope| {
        for _ in 1..workers {
            scope.spawn(|| work(&mut &shared, code, Stack::new()));
        }
        work(&mut &shared, code, first);
    });
    shared.room.into_inner().unwrap_or_else(PoisonError::into_inner).board
}
