//! Turns at a lock, each followed call by call on the library. Who joins a lock with n ahead of it
//! is brought into ready by the (n + 1)th leaving of that lock, and by no call before. Each process
//! of higher priority that joins meanwhile passes it, and puts it off by one leaving.

use super::ahead::unpack;
use super::timers::queue;
use super::{Outcome, Tally};
use crate::call::Call;
use crate::history::{any_call, held, start, unpark};
use crate::library;
use crate::random::Random;
use crate::reference::{self, Shape, State};
use std::cmp::Ordering;

pub fn run(tally: &mut Tally, random: &mut Random) -> Outcome {
    let mut met = Met::default();
    for round in 0..360 {
        let shape = Shape {
            processes: 40,
            locks: [1, 1, 2][round % 3],
            conditions: random.between(1, 2),
            parks: random.between(0, 1),
        };
        history(tally, random, shape, 800, &mut met)?;
    }
    for _ in 0..900 {
        let shape = Shape {
            processes: random.between(2, 9),
            locks: random.between(1, 2),
            conditions: random.between(1, 2),
            parks: random.between(0, 1),
        };
        history(tally, random, shape, 200, &mut met)?;
    }
    tally.remark = format!(
        ", {} turns, {} of them later by higher ones",
        met.ended, met.passed
    );
    met.demand()
}

/// What became of the turns, so that a suite that met too little fails.
#[derive(Default)]
struct Met {
    joined: usize,
    by_reenter: usize,
    /// Newcomers behind an equal.
    behind_equals: usize,
    ended: usize,
    /// Those that somebody passed.
    passed: usize,
    /// Those that joined behind all others but the holder.
    behind_38: usize,
    by_exit: usize,
    by_wait: usize,
    /// Those that a Wait ended that kept its caller in ready.
    by_short_wait: usize,
    /// Aborts of a process that stands in a lock.
    aborted: usize,
    /// Exits and Waits refused while somebody stands in their lock.
    refused: usize,
}

impl Met {
    /// A turn that this call, with this mark, brought to its end.
    fn note(&mut self, turn: &Turn, call: &Call, mark: u64) {
        self.ended += 1;
        self.passed += usize::from(turn.higher > 0);
        self.behind_38 += usize::from(turn.ahead == 38);
        match (call, mark) {
            (Call::Exit(_), _) => self.by_exit += 1,
            (_, 1) => self.by_wait += 1,
            _ => self.by_short_wait += 1,
        }
    }

    fn demand(&self) -> Outcome {
        let counts = [
            ("turns", self.joined, 30_000),
            ("turns to their end", self.ended, self.joined * 9 / 10),
            ("turns that nobody passed", self.ended - self.passed, 20_000),
            ("turns that somebody passed", self.passed, 10_000),
            ("turns behind 38", self.behind_38, 200),
            ("turns that an Exit ends", self.by_exit, 15_000),
            ("turns that a Wait ends", self.by_wait, 10_000),
            ("turns by a Wait with mark 0", self.by_short_wait, 1_500),
            ("joins by Reenter", self.by_reenter, 10_000),
            ("newcomers behind an equal", self.behind_equals, 20_000),
            ("aborts in a lock", self.aborted, 600),
            ("refused leavings", self.refused, 1_500),
        ];
        match counts.iter().find(|(_, count, least)| count < least) {
            None => Ok(()),
            Some((what, count, _)) => Err(format!("hardly met: {what}, {count} times")),
        }
    }
}

/// A process that joined a lock, and what it has seen there since.
#[derive(Debug)]
struct Turn {
    process: u16,
    priority: u16,
    lock: u16,
    /// How many were ahead of it as it joined.
    ahead: usize,
    /// How many of higher priority joined since.
    higher: usize,
    leavings: usize,
}

impl Turn {
    /// How many stand before it; none once it is brought out.
    fn place(&self) -> Option<usize> {
        (self.ahead + self.higher).checked_sub(self.leavings)
    }
}

/// The library's area, and all who stand in its locks. Who runs, and with which priority, is known
/// from the calls and answers alone.
struct Run {
    area: Vec<u16>,
    locks: u16,
    running: u16,
    priorities: Vec<u16>,
    turns: Vec<Turn>,
}

impl Run {
    fn new(shape: Shape) -> Self {
        Run {
            area: vec![0; shape.size()],
            locks: shape.locks,
            running: 0,
            priorities: Vec::new(),
            turns: Vec::new(),
        }
    }

    /// Does a call, and looks after every turn.
    fn call(&mut self, tally: &mut Tally, call: &Call, met: &mut Met) -> Outcome {
        let answer = unpack(library::perform(&mut self.area, call));
        let [code, running, _, mark, _, ahead, _] = answer;
        if code == 0 {
            self.accepted(call, mark, ahead as usize, met);
            self.running = running as u16;
        } else if let Call::Exit(lock) | Call::Wait { lock, .. } = *call {
            met.refused += usize::from(self.at(lock).next().is_some());
        }
        self.look(tally, call, mark, met)
    }

    /// The turns at a lock.
    fn at(&mut self, lock: u16) -> impl Iterator<Item = &mut Turn> {
        self.turns.iter_mut().filter(move |turn| turn.lock == lock)
    }

    fn accepted(&mut self, call: &Call, mark: u64, ahead: usize, met: &mut Met) {
        match *call {
            Call::Start { ref priorities, .. } => {
                self.priorities = priorities.iter().copied().map(u16::from).collect();
            }
            Call::SetPriority(priority) => {
                self.priorities[usize::from(self.running) - 1] = priority;
            }
            Call::Enter(lock) | Call::Reenter { lock, .. } if mark == 0 => {
                met.joined += 1;
                met.by_reenter += usize::from(matches!(call, Call::Reenter { .. }));
                self.join(lock, ahead, met);
            }
            Call::Exit(lock) | Call::Wait { lock, .. } => {
                self.at(lock).for_each(|turn| turn.leavings += 1);
            }
            Call::Abort(process) => {
                let stands = self.turns.iter().any(|turn| turn.process == process);
                met.aborted += usize::from(stands);
            }
            _ => {}
        }
    }

    /// Whoever ran stands in the lock now, with so many ahead of it.
    fn join(&mut self, lock: u16, ahead: usize, met: &mut Met) {
        let process = self.running;
        let priority = self.priorities[usize::from(process) - 1];
        let mut equals = false;
        for turn in self.at(lock) {
            match priority.cmp(&turn.priority) {
                Ordering::Greater => turn.higher += 1,
                Ordering::Equal => equals = true,
                Ordering::Less => {}
            }
        }
        met.behind_equals += usize::from(equals);
        self.turns.push(Turn {
            process,
            priority,
            lock,
            ahead,
            higher: 0,
            leavings: 0,
        });
    }

    /// Who has its turn is in ready, and is followed no more. Everybody else stands at its place,
    /// and nobody beside them.
    fn look(&mut self, tally: &mut Tally, call: &Call, mark: u64, met: &mut Met) -> Outcome {
        let area = &self.area;
        let ready = queue(area, 0, 0);
        let locks: Vec<Vec<u16>> = (1..=self.locks).map(|lock| queue(area, 2, lock)).collect();
        let mut standing = Vec::new();
        for turn in std::mem::take(&mut self.turns) {
            let place = || format!("{turn:?}, {call:?}, then {area:x?}");
            let lock = &locks[usize::from(turn.lock) - 1];
            let found = lock.iter().position(|&process| process == turn.process);
            tally.same(&found, &turn.place(), place)?;
            if found.is_some() {
                standing.push(turn);
            } else {
                tally.holds(ready.contains(&turn.process), place)?;
                met.note(&turn, call, mark);
            }
        }
        self.turns = standing;
        tally.same(&locks.concat().len(), &self.turns.len(), || {
            format!("all in the locks, {call:?}, then {:x?}", self.area)
        })
    }

    fn state(&self) -> Result<State, String> {
        reference::read(&self.area).ok_or_else(|| format!("not sound {:x?}", self.area))
    }
}

/// So many calls after a Start: the locks fill until nobody is left to come, and empty again, at
/// last for good.
fn history(
    tally: &mut Tally,
    random: &mut Random,
    shape: Shape,
    calls: usize,
    met: &mut Met,
) -> Outcome {
    let mut run = Run::new(shape);
    run.call(tally, &start(random, shape), met)?;
    let mut filling = true;
    for number in 0..calls {
        let state = run.state()?;
        let over = if filling {
            all_have_come(&state)
        } else {
            state.locks.iter().all(|lock| lock.queue.is_empty())
        };
        filling ^= over || random.chance(1);
        filling &= number < calls * 3 / 4;
        let call = match other_call(random, &state) {
            Some(call) => call,
            None if filling => filling_call(random, &state),
            None => emptying_call(random, &state),
        };
        run.call(tally, &call, met)?;
    }
    Ok(())
}

fn holds(state: &State, process: u16) -> bool {
    state.locks.iter().any(|lock| lock.holder == process)
}

/// Whether everybody in ready holds a lock.
fn all_hold(state: &State) -> bool {
    state.ready.iter().all(|&process| holds(state, process))
}

/// Whether everybody holds a lock or stands in one.
fn all_have_come(state: &State) -> bool {
    let elsewhere = state
        .parks
        .iter()
        .chain(state.conditions.iter().map(|one| &one.queue));
    all_hold(state) && elsewhere.flatten().next().is_none()
}

/// Now and then somebody is woken, or any call is done, wrong ones among them.
fn other_call(random: &mut Random, state: &State) -> Option<Call> {
    if state.running == 0 || random.chance(5) {
        return Some(waking(random, state));
    }
    random
        .chance(15)
        .then(|| any_call(random, &state.shape, 10))
}

/// Everybody comes to a lock, some with another's priority, and who holds one steps back.
fn filling_call(random: &mut Random, state: &State) -> Call {
    if all_hold(state) {
        return waking(random, state);
    }
    if holds(state, state.running) {
        return step_back(random, state);
    }
    if random.chance(80) {
        return come(random, state);
    }
    let other = random.between(1, state.shape.processes);
    Call::SetPriority(state.record(other).priority)
}

/// Who holds a lock leaves it, and whoever runs then takes it to leave it, too.
fn emptying_call(random: &mut Random, state: &State) -> Call {
    if let Some(lock) = held(random, state) {
        if random.chance(60) {
            return Call::Exit(lock);
        }
        let condition = random.between(1, state.shape.conditions);
        return Call::wait(lock, condition, random.between(0, 20));
    }
    let free = |&lock: &u16| !state.lock(lock).locked && !state.lock(lock).queue.is_empty();
    match (1..=state.shape.locks).find(free) {
        Some(lock) => enter(random, state, lock),
        None if random.chance(70) => step_back(random, state),
        None => come(random, state),
    }
}

fn come(random: &mut Random, state: &State) -> Call {
    let lock = random.between(1, state.shape.locks);
    enter(random, state, lock)
}

fn enter(random: &mut Random, state: &State, lock: u16) -> Call {
    if random.chance(60) {
        return Call::Enter(lock);
    }
    Call::reenter(lock, random.between(1, state.shape.conditions))
}

/// Behind its equals, or behind everybody.
fn step_back(random: &mut Random, state: &State) -> Call {
    let last = state.ready.last().copied().unwrap_or(state.running);
    if random.chance(50) {
        return Call::SetPriority(state.record(last).priority);
    }
    Call::requeue(0, 0, state.running)
}

fn waking(random: &mut Random, state: &State) -> Call {
    let condition = random.between(1, state.shape.conditions);
    match random.below(6) {
        0 => Call::Notify(condition),
        1 => Call::Broadcast(condition),
        2 | 3 => Call::Naked(condition),
        4 => Call::Tick,
        _ => unpark(random, state),
    }
}
