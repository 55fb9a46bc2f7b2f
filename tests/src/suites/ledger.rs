//! Random histories against the arrival ledger: all queues and fields and the whole answer
//! after each call, on the reference's area or on the library's.

use super::{Outcome, Tally};
use crate::call::{Answer, Call};
use crate::coverage::Coverage;
use crate::guarded::Guarded;
use crate::history::{self, History};
use crate::ledger::{Ledger, Place};
use crate::random::Random;
use crate::reference::{self, Queue, Shape, State};
use crate::sample;

/// Does a call on the area under test and answers it, with what else there is to compare.
pub type Perform = fn(&mut Tally, &mut Guarded, &Call) -> Result<Answer, String>;

/// A history to be: its counts, what the clock says before the first call, how many calls there
/// are, and how many of a hundred are Ticks whatever the mood.
struct Plan {
    shape: Shape,
    clock: u16,
    calls: usize,
    ticks: usize,
}

/// A history on an area and in the ledger, side by side.
struct Run {
    area: Guarded,
    ledger: Ledger,
    entries: Vec<u64>,
    leavings: Vec<u64>,
}

pub fn run(tally: &mut Tally, random: &mut Random) -> Outcome {
    histories(tally, random, |_, area, call| {
        Ok(reference::perform(area.slice_mut(), call))
    })
}

/// Histories of all kinds: small ones, ones near the clock's end, ones that crowd a lock, one of
/// the greatest size, and ones in which the clock goes round while timers are set.
pub fn histories(tally: &mut Tally, random: &mut Random, perform: Perform) -> Outcome {
    let mut coverage = Coverage::default();
    for _ in 0..600 {
        let small = Plan {
            shape: sample::small_shape(random),
            clock: 0,
            calls: 250,
            ticks: 0,
        };
        history(tally, random, perform, &small, &mut coverage)?;
    }
    for _ in 0..1_200 {
        let processes = random.between(3, 8);
        let late = Plan {
            shape: shape(processes, 1, 2, 1),
            clock: random.between(65_506, 65_535),
            calls: 100,
            ticks: 20,
        };
        history(tally, random, perform, &late, &mut coverage)?;
    }
    for _ in 0..10 {
        let processes = random.between(44, 48);
        let crowd = Plan {
            shape: shape(processes, 2, 2, 2),
            clock: 0,
            calls: 600,
            ticks: 0,
        };
        history(tally, random, perform, &crowd, &mut coverage)?;
    }
    let greatest = Plan {
        shape: shape(1023, 255, 255, 8),
        clock: 0,
        calls: 100,
        ticks: 0,
    };
    history(tally, random, perform, &greatest, &mut coverage)?;
    coverage.demand_all()?;
    if coverage.longest_lock_queue < 40 {
        return Err("no lock had forty processes".to_string());
    }
    let mut coverage = Coverage::default();
    for _ in 0..3 {
        let long = Plan {
            shape: shape(7, 1, 2, 1),
            clock: 0,
            calls: 85_000,
            ticks: 94,
        };
        history(tally, random, perform, &long, &mut coverage)?;
    }
    coverage.demand_round()
}

fn shape(processes: u16, locks: u16, conditions: u16, parks: u16) -> Shape {
    Shape {
        processes,
        locks,
        conditions,
        parks,
    }
}

fn history(
    tally: &mut Tally,
    random: &mut Random,
    perform: Perform,
    plan: &Plan,
    coverage: &mut Coverage,
) -> Outcome {
    let start = history::start(random, plan.shape);
    let beyond = random.below(9);
    let area = Guarded::new(&random.words(plan.shape.size() + beyond));
    let mut run = begin(tally, perform, area, &start)?;
    let clock = plan.clock;
    run.set_clock(clock);
    let mut history = History::new(15, plan.ticks);
    let mut state = sound_state(run.area.slice())?;
    for step in 1..=plan.calls {
        let call = history.next(random, &state);
        let place = || format!("call {step} {call:?} after {start:?}, clock {clock}");
        let answer = perform(tally, &mut run.area, &call)?;
        tally.same(&answer, &run.ledger.call(&call), place)?;
        let after = sound_state(run.area.slice())?;
        run.count(&call, &answer);
        run.compare(tally, &after, place)?;
        coverage.note(&state, &call, &answer, &after);
        state = after;
    }
    tally.holds(run.area.intact(), || format!("guard words after {start:?}"))
}

fn begin(
    tally: &mut Tally,
    perform: Perform,
    mut area: Guarded,
    start: &Call,
) -> Result<Run, String> {
    let &Call::Start { locks, .. } = start else {
        return Err("a history begins with Start".to_string());
    };
    let (ledger, expected) =
        Ledger::start(start).map_err(|code| format!("the ledger refuses {start:?} with {code}"))?;
    let answer = perform(tally, &mut area, start)?;
    tally.same(&answer, &expected, || format!("{start:?}"))?;
    let run = Run {
        area,
        ledger,
        entries: vec![0; usize::from(locks)],
        leavings: vec![0; usize::from(locks)],
    };
    Ok(run)
}

fn sound_state(area: &[u16]) -> Result<State, String> {
    reference::read(area).ok_or_else(|| format!("not sound {area:x?}"))
}

impl Run {
    /// As so many Ticks right after Start do: nobody waits, and nothing but the clock changes.
    fn set_clock(&mut self, clock: u16) {
        self.area.slice_mut()[3] = clock;
        self.ledger.clock = clock;
    }

    fn count(&mut self, call: &Call, answer: &Answer) {
        match *call {
            Call::Enter(lock) | Call::Reenter { lock, .. } if answer.mark == 1 => {
                self.entries[usize::from(lock) - 1] += 1
            }
            Call::Exit(lock) | Call::Wait { lock, .. } if answer.code == 0 => {
                self.leavings[usize::from(lock) - 1] += 1
            }
            _ => {}
        }
    }

    fn compare(&self, tally: &mut Tally, state: &State, place: impl Fn() -> String) -> Outcome {
        agree(tally, &self.ledger, state, &place)?;
        for lock in 1..=state.shape.locks {
            let at = usize::from(lock) - 1;
            let inside = self.entries[at] - self.leavings[at];
            tally.same(&inside, &u64::from(state.lock(lock).locked), || {
                format!("entries minus leavings of lock {lock}, {}", place())
            })?;
        }
        let total: usize = state
            .shape
            .queues()
            .iter()
            .map(|&q| state.queue(q).len())
            .sum();
        tally.same(&total, &usize::from(state.shape.processes), || {
            format!("processes in all queues, {}", place())
        })
    }
}

/// All queues, running, every field that the ledger keeps, locked and waiting, the ticks left.
fn agree(
    tally: &mut Tally,
    ledger: &Ledger,
    state: &State,
    place: &impl Fn() -> String,
) -> Outcome {
    for queue in state.shape.queues() {
        tally.same(state.queue(queue), &ledger.queue(place_of(queue)), || {
            format!("{queue:?}, {}", place())
        })?;
    }
    let first = state.ready.first().copied().unwrap_or(0);
    tally.same(&state.running, &ledger.running, || {
        format!("running, {}", place())
    })?;
    tally.same(&state.running, &first, || {
        format!("first of ready, {}", place())
    })?;
    tally.same(&state.clock, &ledger.clock, || {
        format!("clock, {}", place())
    })?;
    let timed: Vec<(u16, u32)> = state
        .timed()
        .iter()
        .map(|timed| (timed.process, timed.left))
        .collect();
    tally.same(&timed, &ledger.timed(), || {
        format!("ticks left, {}", place())
    })?;
    for process in 1..=state.shape.processes {
        let (record, at) = (state.record(process), usize::from(process));
        let found = (
            record.priority,
            record.timer,
            record.armed,
            record.failed,
            record.waiting,
            record.abort,
        );
        let expected = (
            ledger.priority[at],
            ledger.timer[at],
            ledger.armed[at],
            ledger.failed[at],
            ledger.waiting(process),
            ledger.abort[at],
        );
        tally.same(&found, &expected, || {
            format!("process {process}, {}", place())
        })?;
    }
    for lock in 1..=state.shape.locks {
        let found = (state.lock(lock).holder, state.lock(lock).locked);
        let expected = (ledger.holder[usize::from(lock)], ledger.locked(lock));
        tally.same(&found, &expected, || format!("lock {lock}, {}", place()))?;
    }
    for condition in 1..=state.shape.conditions {
        let (one, at) = (state.condition(condition), usize::from(condition));
        let found = (one.wakeup, one.abortable);
        let expected = (ledger.wakeup[at], ledger.abortable[at]);
        tally.same(&found, &expected, || {
            format!("condition {condition}, {}", place())
        })?;
    }
    Ok(())
}

fn place_of(queue: Queue) -> Place {
    match queue {
        Queue::Ready => Place::Ready,
        Queue::Park(number) => Place::Park(number),
        Queue::Lock(number) => Place::Lock(number),
        Queue::Condition(number) => Place::Condition(number),
    }
}
