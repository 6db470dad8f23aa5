//! A run by picks: at each step a number says which of the enabled steps is made, in the order of names.

use crate::board::{Board, Next, Outcome, Stack, Work};
use crate::code::Code;
use crate::hash::Map;
use crate::task::{Request, Task};

/// All that is enabled, the last name first, so that the first one is cheap to take.
struct Picker<'c> {
    code: &'c Code,
    board: Board<'c>,
    tasks: Map<u32, Box<Task>>,
    enabled: Vec<u32>,
    handlers: Vec<u32>,
    /// The tasks that ask for a freeze: whether they are enabled may change with each step.
    freezes: Vec<u32>,
    spare: Vec<Box<Task>>,
    made: Stack,
}

/// Runs a script by these picks, and then by zeros.
pub fn run<'c>(code: &'c Code, picks: &[usize], budget: usize) -> Board<'c> {
    let board = Board::new(code, budget);
    let (enabled, handlers, freezes) = (Vec::new(), Vec::new(), Vec::new());
    let mut picker = Picker {
        code,
        board,
        tasks: Map::default(),
        enabled,
        handlers,
        freezes,
        spare: Vec::new(),
        made: Stack::new(),
    };
    picker.start(Task::new(code, code.main, &mut Vec::new()));
    let mut picks = picks.iter().copied();
    while picker.board.outcome.is_none() {
        picker.look_at_freezes();
        match picker.enabled.len() + picker.handlers.len() {
            0 => picker.board.outcome = Some(Outcome::Ended),
            count => picker.step(picks.next().unwrap_or(0) % count),
        }
    }
    picker.board
}

impl Picker<'_> {
    /// Makes the step of this number.
    fn step(&mut self, number: usize) {
        if number < self.enabled.len() {
            let name = self.enabled.remove(self.enabled.len() - 1 - number);
            let Some(task) = self.tasks.remove(&name) else { return };
            self.freezes.retain(|it| *it != name);
            match self.board.step(task, &mut self.made) {
                Next::Go(task) => self.start(task),
                Next::Ended(task) => self.spare.push(task),
                Next::Parked | Next::Over => {}
            }
        } else {
            let at = self.handlers.len() - 1 - (number - self.enabled.len());
            let handler = self.handlers[at];
            let Some((task, has_more)) = self.board.hand(handler, &mut self.spare, &mut self.made) else { return };
            if !has_more {
                self.handlers.remove(at);
            }
            self.start(task);
        }
        while let Some(work) = self.made.pop_front() {
            match work {
                Work::Handler(handler) => {
                    let at =
                        self.handlers.partition_point(|it| self.board.names.compare_handlers(*it, handler).is_gt());
                    self.handlers.insert(at, handler);
                }
                Work::Task(task) if matches!(task.request, Request::Start) => self.start(task),
                Work::Task(task) => self.place(task),
            }
        }
    }

    /// Runs a task up to what it asks next.
    fn start(&mut self, mut task: Box<Task>) {
        task.run(self.code, &mut self.spare);
        self.place(task);
    }

    /// Puts a task where it belongs by what it asks.
    fn place(&mut self, task: Box<Task>) {
        let name = task.name;
        if matches!(task.request, Request::Freeze { .. }) {
            self.freezes.push(name);
        } else if self.board.is_enabled(&task) {
            self.list(name, true);
        } else {
            self.board.park(task);
            return;
        }
        self.tasks.insert(name, task);
    }

    /// Puts a task into the list of those that are enabled, or takes it out.
    fn list(&mut self, name: u32, is_enabled: bool) {
        match (self.enabled.binary_search_by(|it| self.board.names.compare(name, *it)), is_enabled) {
            (Err(at), true) => self.enabled.insert(at, name),
            (Ok(at), false) => drop(self.enabled.remove(at)),
            _ => {}
        }
    }

    fn look_at_freezes(&mut self) {
        for at in 0..self.freezes.len() {
            let name = self.freezes[at];
            self.list(name, self.board.is_enabled(&self.tasks[&name]));
        }
    }
}
