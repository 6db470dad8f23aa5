//! What the tasks share: variables, handlers, names and the trace. Each call makes one step at most.

use crate::code::{Code, Fault, Kind};
use crate::names::{Handler, Names};
use crate::state::{Growth, State};
use crate::task::{Events, Request, Task};
use crate::waiting::Waiting;
use std::collections::VecDeque;
use std::sync::Arc;

/// Added to a task's name in the trace, where the step handed its event to a handler.
pub const HANDED: u32 = 1 << 31;
const MOST_PARTS: u8 = 64;

pub enum Outcome {
    Ended,
    /// Of a variable, if the fault has one, and by a task of this name.
    Error(Fault, Option<u8>, u32),
    Budget,
}

/// Something that a worker can go on with.
pub enum Work {
    /// A task that asks for a step.
    Task(Box<Task>),
    /// A handler that has events to hand.
    Handler(u32),
}

/// A worker's work: it takes the newest, and gives the oldest away.
pub type Stack = VecDeque<Work>;

/// What has become of a task that asked for a step.
pub enum Next {
    Go(Box<Task>),
    Ended(Box<Task>),
    Parked,
    Over,
}

struct Variable {
    state: State,
    is_frozen: bool,
    handlers: u64,
    /// The handlers that were handed every event.
    idle: Vec<u32>,
    /// How many events are to be handed, by all handlers together.
    pending: u64,
    waiting: Waiting,
    freezes: Vec<Box<Task>>,
    events: Option<Events>,
}

pub struct Board<'c> {
    code: &'c Code,
    variables: Vec<Variable>,
    pub names: Names,
    /// The tasks of each pool that have not ended.
    running: Vec<u32>,
    pub trace: Vec<u32>,
    budget: usize,
    pub live: usize,
    parked: usize,
    pending: u64,
    pub outcome: Option<Outcome>,
}

impl<'c> Board<'c> {
    /// A board on which `main` is about to begin.
    pub fn new(code: &'c Code, budget: usize) -> Board<'c> {
        let variable = |kind| Variable {
            state: State::new(kind),
            is_frozen: false,
            handlers: 0,
            idle: Vec::new(),
            pending: 0,
            waiting: Waiting::default(),
            freezes: Vec::new(),
            events: None,
        };
        Board {
            code,
            variables: code.variables.iter().map(|it| variable(it.kind)).collect(),
            names: Names::new(code.variables.len()),
            running: vec![0; code.pools.len()],
            trace: Vec::new(),
            budget,
            live: 1,
            parked: 0,
            pending: 0,
            outcome: None,
        }
    }

    fn kind(&self, variable: u8) -> Kind {
        self.code.variables[usize::from(variable)].kind
    }

    fn fail(&mut self, fault: Fault, variable: Option<u8>, task: u32) -> Next {
        self.outcome = Some(Outcome::Error(fault, variable, task));
        Next::Over
    }

    /// Ends the run where no task can go on and no handler has an event.
    fn look_for_end(&mut self) {
        if self.live == self.parked && self.pending == 0 {
            self.outcome = Some(Outcome::Ended);
        }
    }

    /// Notes a step, unless the budget is used up.
    fn count(&mut self, label: u32) -> bool {
        let is_within = self.trace.len() < self.budget;
        match is_within {
            true => self.trace.push(label),
            false => self.outcome = Some(Outcome::Budget),
        }
        is_within
    }

    fn may_freeze(&self, variable: u8, frost: u16) -> bool {
        let pools = &self.code.frosts[usize::from(frost)].pools;
        self.variables[usize::from(variable)].pending == 0
            && pools.iter().all(|pool| self.running[usize::from(*pool)] == 0)
    }

    /// Whether the task can take its step.
    pub fn is_enabled(&self, task: &Task) -> bool {
        match task.request {
            Request::Get { variable, key, wanted } => {
                self.variables[usize::from(variable)].state.read(self.code, key, wanted).is_some()
            }
            Request::Freeze { variable, frost } => self.may_freeze(variable, frost),
            _ => true,
        }
    }

    /// Keeps a task whose step isn't enabled until it is.
    pub fn park(&mut self, task: Box<Task>) -> Next {
        self.parked += 1;
        match task.request {
            Request::Get { variable, .. } => {
                let kind = self.kind(variable);
                self.variables[usize::from(variable)].waiting.park(kind, task);
            }
            Request::Freeze { variable, .. } => self.variables[usize::from(variable)].freezes.push(task),
            _ => {}
        }
        self.look_for_end();
        if self.outcome.is_some() { Next::Over } else { Next::Parked }
    }

    /// Makes the step that a task asks for, or parks it; what else can go on by that comes into `made`.
    pub fn step(&mut self, mut task: Box<Task>, made: &mut Stack) -> Next {
        if self.outcome.is_some() {
            return Next::Over;
        }
        let mut answer = None;
        if let Request::Get { variable, key, wanted } = task.request {
            answer = self.variables[usize::from(variable)].state.read(self.code, key, wanted);
            if answer.is_none() {
                return self.park(task);
            }
        } else if !self.is_enabled(&task) {
            return self.park(task);
        }
        if !self.count(task.name) {
            return Next::Over;
        }
        match std::mem::replace(&mut task.request, Request::Pause) {
            Request::Put { variable, key, number } => return self.put(task, variable, (key, number), made),
            Request::Fork(child) => return self.fork(task, child, made),
            Request::Handle { pool, procedure } => return self.handle(task, pool, procedure, made),
            Request::Freeze { variable, frost } => self.freeze(&mut task, variable, frost),
            Request::End => return self.end(task, made),
            Request::Fault(fault) => return self.fail(fault, None, task.name),
            Request::Get { .. } => task.answer(answer.unwrap_or(0)),
            Request::Pause | Request::Start => {}
        }
        Next::Go(task)
    }

    fn put(&mut self, task: Box<Task>, at: u8, (key, number): (i64, i64), made: &mut Stack) -> Next {
        let kind = self.kind(at);
        let variable = &mut self.variables[usize::from(at)];
        let (from, to) = match variable.state.join(key, number) {
            Growth::Nothing => return Next::Go(task),
            Growth::Conflict => return self.fail(Fault::Conflict, Some(at), task.name),
            Growth::Events(..) if variable.is_frozen => return self.fail(Fault::Frozen, Some(at), task.name),
            Growth::Events(from, to) => (from, to),
        };
        let log = &mut self.names.logs[usize::from(at)];
        let before = log.len();
        log.extend((from..=to).map(|number| (key, number)));
        let fresh = (log.len() - before) as u64 * variable.handlers;
        variable.pending += fresh;
        self.pending += fresh;
        made.extend(variable.idle.drain(..).map(Work::Handler));
        self.parked -= variable.waiting.wake(self.code, kind, (key, to), made);
        if let State::Tally { total, .. } = variable.state {
            self.parked -= variable.waiting.wake_total(total, made);
        }
        Next::Go(task)
    }

    fn fork(&mut self, mut task: Box<Task>, mut child: Box<Task>, made: &mut Stack) -> Next {
        if self.names.depth(task.name) == MOST_PARTS {
            return self.fail(Fault::Deep, None, task.name);
        }
        task.forks += 1;
        child.name = self.names.fork(task.name, task.forks);
        child.pool = task.pool;
        self.live += 1;
        if let Some(pool) = task.pool {
            self.running[usize::from(pool)] += 1;
        }
        made.push_back(Work::Task(child));
        Next::Go(task)
    }

    fn handle(&mut self, mut task: Box<Task>, pool: u8, procedure: u16, made: &mut Stack) -> Next {
        if self.names.depth(task.name) == MOST_PARTS {
            return self.fail(Fault::Deep, None, task.name);
        }
        let at = self.code.pools[usize::from(pool)];
        let variable = &mut self.variables[usize::from(at)];
        if variable.is_frozen {
            return self.fail(Fault::Late, Some(at), task.name);
        }
        task.handlers += 1;
        let handler = self.names.handlers.len() as u32;
        self.names.handlers.push(Handler {
            adder: task.name,
            number: task.handlers,
            pool,
            variable: at,
            procedure,
            done: 0,
        });
        let events = self.names.logs[usize::from(at)].len() as u64;
        variable.handlers += 1;
        variable.pending += events;
        self.pending += events;
        match events {
            0 => variable.idle.push(handler),
            _ => made.push_back(Work::Handler(handler)),
        }
        Next::Go(task)
    }

    fn freeze(&mut self, task: &mut Task, variable: u8, frost: u16) {
        let (log, variable) = (&self.names.logs[usize::from(variable)], &mut self.variables[usize::from(variable)]);
        variable.is_frozen = true;
        task.answer(log.len() as i64);
        if let Some(procedure) = self.code.frosts[usize::from(frost)].each {
            let events = variable.events.get_or_insert_with(|| {
                let mut events = log.clone();
                events.sort_unstable();
                events.into()
            });
            task.walk(Arc::clone(events), procedure);
        }
    }

    fn end(&mut self, task: Box<Task>, made: &mut Stack) -> Next {
        self.live -= 1;
        if let Some(pool) = task.pool {
            let running = &mut self.running[usize::from(pool)];
            *running -= 1;
            if *running == 0 {
                self.wake_freezes(self.code.pools[usize::from(pool)], made);
            }
        }
        self.look_for_end();
        Next::Ended(task)
    }

    /// Takes the freezes of a variable that may be made.
    fn wake_freezes(&mut self, at: u8, made: &mut Stack) {
        let (mut place, at) = (0, usize::from(at));
        while let Some(task) = self.variables[at].freezes.get(place) {
            if self.is_enabled(task) {
                self.parked -= 1;
                made.push_back(Work::Task(self.variables[at].freezes.swap_remove(place)));
            } else {
                place += 1;
            }
        }
    }

    /// Hands a handler its next event; returns the task that runs on it, and whether the handler has more.
    pub fn hand(&mut self, number: u32, spare: &mut Vec<Box<Task>>, made: &mut Stack) -> Option<(Box<Task>, bool)> {
        if self.outcome.is_some() {
            return None;
        }
        let handler = &mut self.names.handlers[number as usize];
        let (entry, at, pool, procedure) = (handler.done, handler.variable, handler.pool, handler.procedure);
        handler.done += 1;
        let log = &self.names.logs[usize::from(at)];
        let (event, has_more) = (log[entry as usize], (entry as usize) + 1 < log.len());
        let name = self.names.event(number, entry);
        if !self.count(name | HANDED) {
            return None;
        }
        let mut task = Task::new(self.code, procedure, spare);
        (task.name, task.pool) = (name, Some(pool));
        task.take_event(event);
        self.live += 1;
        self.running[usize::from(pool)] += 1;
        self.pending -= 1;
        let variable = &mut self.variables[usize::from(at)];
        variable.pending -= 1;
        if !has_more {
            variable.idle.push(number);
        }
        if variable.pending == 0 {
            self.wake_freezes(at, made);
        }
        Some((task, has_more))
    }

    /// The contents of the variables; of the frozen ones alone, unless all are asked for.
    pub fn states(&self, all: bool) -> impl Iterator<Item = (&str, &State)> {
        let states = self.variables.iter().zip(&self.code.variables);
        states.filter(move |(it, _)| all || it.is_frozen).map(|(it, of)| (of.name.as_str(), &it.state))
    }
}
