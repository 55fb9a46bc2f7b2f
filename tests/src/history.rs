//! Random histories: a Start, then calls that make sense in the state, with wrong calls and
//! wrong numbers between them.

use crate::call::Call;
use crate::random::Random;
use crate::reference::{Shape, State};

/// What the processes are at for a while.
#[derive(Clone, Copy)]
enum Mood {
    Mixed,
    Crowding,
    Waiting,
    Waking,
    Ticking,
    Alarming,
}

pub struct History {
    mood: Mood,
    left: usize,
    /// How many of a hundred numbers are drawn from the wrong ones too.
    wrong: usize,
    /// How many of a hundred calls are ticks, whatever the mood.
    ticks: usize,
}

pub fn start(random: &mut Random, shape: Shape) -> Call {
    let lowest = random.between(0, 7);
    let highest = random.between(lowest, 7);
    Call::Start {
        processes: shape.processes,
        locks: shape.locks,
        conditions: shape.conditions,
        parks: shape.parks,
        priorities: (0..shape.processes)
            .map(|_| random.between(lowest, highest) as u8)
            .collect(),
    }
}

/// A number from 1 to `count`, or now and then one beside it.
pub fn number(random: &mut Random, count: u16, wrong: usize) -> u16 {
    if count == 0 || random.chance(wrong) {
        let near = random.between(0, count);
        random.pick(&[
            0,
            count,
            count + 1,
            count + 2,
            near + 256,
            near + 1024,
            near + 8192,
            255,
            1023,
            32_768,
            65_535,
        ])
    } else {
        random.between(1, count)
    }
}

fn ticks(random: &mut Random) -> u16 {
    match random.below(8) {
        0 => 0,
        1 => random.pick(&[65_535, 65_534, 32_768]),
        2 => random.word(),
        _ => random.between(1, 12),
    }
}

/// How many ticks bring the clock to 0.
fn until_zero(clock: u16) -> u16 {
    clock.wrapping_neg()
}

/// A call with any numbers.
pub fn any_call(random: &mut Random, shape: &Shape, wrong: usize) -> Call {
    let lock = number(random, shape.locks, wrong);
    let condition = number(random, shape.conditions, wrong);
    match random.below(12) {
        0 => Call::Enter(lock),
        1 => Call::Exit(lock),
        2 => Call::Wait {
            lock,
            condition,
            ticks: ticks(random),
        },
        3 => Call::Notify(condition),
        4 => Call::Broadcast(condition),
        5 => Call::Naked(condition),
        6 => Call::Requeue {
            source: park(random, shape, wrong),
            destination: park(random, shape, wrong),
            process: number(random, shape.processes, wrong),
        },
        7 => Call::SetPriority(priority(random, wrong)),
        8 => Call::Abort(number(random, shape.processes, wrong)),
        9 => Call::set_abortable(condition, value(random, wrong)),
        10 => Call::reenter(lock, condition),
        _ => Call::Tick,
    }
}

/// 0 or 1, or now and then a number above.
fn value(random: &mut Random, wrong: usize) -> u16 {
    if random.chance(wrong) {
        return random.pick(&[2, 3, 255, 256, 257, 32_768, 65_535]);
    }
    random.between(0, 1)
}

fn park(random: &mut Random, shape: &Shape, wrong: usize) -> u16 {
    if random.chance(40) {
        return 0;
    }
    number(random, shape.parks, wrong)
}

fn priority(random: &mut Random, wrong: usize) -> u16 {
    if random.chance(wrong) {
        return random.pick(&[7, 8, 9, 15, 255, 256, 1024, 65_535]);
    }
    random.between(0, 7)
}

impl History {
    pub fn new(wrong: usize, ticks: usize) -> Self {
        History {
            mood: Mood::Mixed,
            left: 0,
            wrong,
            ticks,
        }
    }

    /// The next call of the history that stands at this state. Whoever holds a lock seldom
    /// enters another, so that most histories don't end with all processes in locks.
    pub fn next(&mut self, random: &mut Random, state: &State) -> Call {
        if random.chance(self.ticks) {
            return Call::Tick;
        }
        if self.left == 0 {
            self.left = 10 + random.below(120);
            self.mood = random.pick(&[
                Mood::Mixed,
                Mood::Crowding,
                Mood::Crowding,
                Mood::Waiting,
                Mood::Waiting,
                Mood::Waking,
                Mood::Ticking,
                Mood::Alarming,
            ]);
        }
        self.left -= 1;
        let call = self.choose(random, state);
        match held(random, state) {
            Some(lock) if enters(&call) && random.chance(90) => Call::Exit(lock),
            _ => call,
        }
    }

    fn choose(&self, random: &mut Random, state: &State) -> Call {
        if random.chance(10) {
            return any_call(random, &state.shape, self.wrong);
        }
        match self.mood {
            Mood::Mixed => self.mixed(random, state),
            Mood::Crowding => self.crowding(random, state),
            Mood::Waiting => self.waiting(random, state),
            Mood::Waking => self.waking(random, state),
            Mood::Ticking => Call::Tick,
            Mood::Alarming => self.alarming(random, state),
        }
    }

    fn mixed(&self, random: &mut Random, state: &State) -> Call {
        match held(random, state) {
            Some(lock) if random.chance(50) => Call::Exit(lock),
            _ => any_call(random, &state.shape, self.wrong),
        }
    }

    /// Everybody enters lock 1, and its holder steps back behind the others.
    fn crowding(&self, random: &mut Random, state: &State) -> Call {
        if state.locks.is_empty() || state.running == 0 {
            return self.waking(random, state);
        }
        if state.lock(1).holder != state.running {
            return self.enter(random, state, 1);
        }
        if state.lock(1).queue.len() + 1 >= state.ready.len() && random.chance(30) {
            return Call::Exit(1);
        }
        if random.chance(50) {
            return Call::SetPriority(0);
        }
        Call::Requeue {
            source: 0,
            destination: 0,
            process: state.running,
        }
    }

    fn waiting(&self, random: &mut Random, state: &State) -> Call {
        let shape = &state.shape;
        match held(random, state) {
            Some(lock) if shape.conditions > 0 => Call::Wait {
                lock,
                condition: number(random, shape.conditions, self.wrong),
                ticks: match random.below(8) {
                    0 => until_zero(state.clock),
                    _ => ticks(random),
                },
            },
            Some(lock) => Call::Exit(lock),
            None if state.running == 0 && random.chance(20) => {
                Call::Abort(alarmed(random, state, self.wrong))
            }
            None if state.running == 0 => Call::Tick,
            None => {
                let lock = number(random, shape.locks, self.wrong);
                self.enter(random, state, lock)
            }
        }
    }

    /// Enter, or Reenter where there is a condition to name.
    fn enter(&self, random: &mut Random, state: &State, lock: u16) -> Call {
        if state.shape.conditions == 0 || random.chance(60) {
            return Call::Enter(lock);
        }
        Call::reenter(lock, number(random, state.shape.conditions, self.wrong))
    }

    /// Conditions become abortable, who waits is called off, and whoever runs waits again.
    fn alarming(&self, random: &mut Random, state: &State) -> Call {
        let condition = number(random, state.shape.conditions, self.wrong);
        match random.below(8) {
            0 => Call::set_abortable(condition, 1),
            1 => Call::set_abortable(condition, value(random, self.wrong)),
            2 | 3 => Call::Abort(alarmed(random, state, self.wrong)),
            4 => self.waking(random, state),
            _ => self.waiting(random, state),
        }
    }

    fn waking(&self, random: &mut Random, state: &State) -> Call {
        let condition = number(random, state.shape.conditions, self.wrong);
        match random.below(6) {
            0 | 1 => Call::Notify(condition),
            2 => Call::Broadcast(condition),
            3 => Call::Naked(condition),
            4 => unpark(random, state),
            _ => match held(random, state) {
                Some(lock) => Call::Exit(lock),
                None => Call::Tick,
            },
        }
    }
}

fn enters(call: &Call) -> bool {
    matches!(call, Call::Enter(_) | Call::Reenter { .. })
}

/// Somebody who waits, or any number of a process.
fn alarmed(random: &mut Random, state: &State, wrong: usize) -> u16 {
    let waiting: Vec<u16> = (1..=state.shape.processes)
        .filter(|&process| state.record(process).waiting)
        .collect();
    if waiting.is_empty() || random.chance(40) {
        return number(random, state.shape.processes, wrong);
    }
    random.pick(&waiting)
}

/// A lock that the running process holds.
pub fn held(random: &mut Random, state: &State) -> Option<u16> {
    let mut locks: Vec<u16> = (1..=state.shape.locks).collect();
    locks.retain(|&lock| state.running != 0 && state.lock(lock).holder == state.running);
    (!locks.is_empty()).then(|| random.pick(&locks))
}

pub fn unpark(random: &mut Random, state: &State) -> Call {
    for park in 1..=state.shape.parks {
        if let Some(&process) = state.parks[usize::from(park) - 1].last() {
            return Call::Requeue {
                source: park,
                destination: 0,
                process,
            };
        }
    }
    Call::Requeue {
        source: 0,
        destination: random.between(0, state.shape.parks),
        process: random.between(1, state.shape.processes),
    }
}
