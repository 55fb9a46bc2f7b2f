//! Waits on the library, each followed call by call. A Wait of t ticks with mark 1 lasts until the
//! t-th Tick, which brings the process into ready, whatever else is called between, unless another
//! call wakes it before. Who waits without ticks sleeps through every Tick.

use super::timers::members;
use super::{Outcome, Tally};
use crate::call::Call;
use crate::history::{self, History};
use crate::library;
use crate::random::Random;
use crate::reference::{self, Shape, State};
use crate::sample;

pub fn run(tally: &mut Tally, random: &mut Random) -> Outcome {
    let mut met = Met::default();
    short_sleeps(tally, random, &mut met)?;
    long_sleeps(tally, random, &mut met)?;
    tally.remark = format!(
        ", {} waits to their end, {} woken before",
        met.followed, met.woken
    );
    met.demand()
}

/// What became of the waits, so that a suite that met too little fails.
#[derive(Default)]
struct Met {
    /// Those that lasted as long as they were to.
    followed: u64,
    of_one: u64,
    of_two: u64,
    of_most: u64,
    at_zero: u64,
    /// Those that another call ended.
    woken: u64,
    /// Those of them that an Abort ended.
    called_off: u64,
    /// Ticks to clock 0 through which somebody slept who waits without ticks.
    slept_through: u64,
}

impl Met {
    fn note(&mut self, clock: u16, ticks: u16) {
        self.followed += 1;
        self.of_one += u64::from(ticks == 1);
        self.of_two += u64::from(ticks == 2);
        self.of_most += u64::from(ticks == 65_535);
        self.at_zero += u64::from(clock == 0);
    }

    fn demand(&self) -> Outcome {
        let counts = [
            ("waits to their end", self.followed, 10_000),
            ("waits of 1 tick", self.of_one, 1_000),
            ("waits of 2 ticks", self.of_two, 1_000),
            ("waits of 65,535 ticks", self.of_most, 20),
            ("waits that end at clock 0", self.at_zero, 200),
            ("waits that another call ends", self.woken, 1_000),
            ("waits that an Abort ends", self.called_off, 500),
            ("sleep through clock 0", self.slept_through, 100),
        ];
        match counts.iter().find(|(_, count, least)| count < least) {
            None => Ok(()),
            Some((what, count, _)) => Err(format!("hardly met: {what}, {count} times")),
        }
    }
}

/// A process that waits since a Wait of so many ticks, and how many Ticks came since then.
struct Sleeper {
    process: u16,
    condition: u16,
    ticks: u16,
    passed: u32,
}

impl Sleeper {
    fn is_due(&self) -> bool {
        self.ticks != 0 && self.passed == u32::from(self.ticks)
    }
}

/// Whether a call can wake this process, which waits on this condition, before its time.
fn wakes(call: &Call, process: u16, condition: u16) -> bool {
    match *call {
        Call::Notify(number) | Call::Broadcast(number) | Call::Naked(number) => number == condition,
        Call::Abort(number) => number == process,
        _ => false,
    }
}

/// The library's area, and all who sleep in it.
struct Run {
    area: Vec<u16>,
    sleepers: Vec<Sleeper>,
}

impl Run {
    fn new(area: Vec<u16>) -> Self {
        Run {
            area,
            sleepers: Vec::new(),
        }
    }

    /// Does a call, and looks after every sleeper.
    fn call(&mut self, tally: &mut Tally, call: &Call, met: &mut Met) -> Outcome {
        let caller = self.area[4] >> 3;
        let answer = library::perform(&mut self.area, call);
        match *call {
            Call::Wait {
                condition, ticks, ..
            } if answer & 1023 == 0 && answer >> 30 & 1023 == 1 => self.sleepers.push(Sleeper {
                process: caller,
                condition,
                ticks,
                passed: 0,
            }),
            Call::Tick => {
                for sleeper in &mut self.sleepers {
                    sleeper.passed += 1;
                }
            }
            _ => {}
        }
        self.look(tally, call, met)
    }

    /// Who is due is in ready, and is followed no more; nor is who was woken. Everybody else
    /// stands in its condition.
    fn look(&mut self, tally: &mut Tally, call: &Call, met: &mut Met) -> Outcome {
        let ready = members(&self.area, 0, 0);
        let ticked = *call == Call::Tick;
        let clock = self.area[3];
        let mut asleep = Vec::new();
        for sleeper in std::mem::take(&mut self.sleepers) {
            let Sleeper {
                process,
                condition,
                ticks,
                passed,
            } = sleeper;
            let place = || {
                let area = &self.area;
                format!("{process} in tick {passed} of {ticks}, {call:?}, then {area:x?}")
            };
            let waits = members(&self.area, 3, condition).contains(&process);
            if ticked && sleeper.is_due() {
                tally.holds(ready.contains(&process), place)?;
                met.note(clock, ticks);
            } else if !waits && wakes(call, process, condition) {
                tally.holds(ready.contains(&process), place)?;
                met.woken += 1;
                met.called_off += u64::from(matches!(call, Call::Abort(_)));
            } else {
                tally.holds(waits, place)?;
                met.slept_through += u64::from(ticked && ticks == 0 && clock == 0);
                asleep.push(sleeper);
            }
        }
        self.sleepers = asleep;
        Ok(())
    }

    fn state(&self) -> Result<State, String> {
        reference::read(&self.area).ok_or_else(|| format!("not sound {:x?}", self.area))
    }
}

/// A fresh area at a clock, as so many Ticks leave it.
fn fresh(random: &mut Random, shape: Shape, clock: u16) -> Vec<u16> {
    let mut area = vec![0; shape.size()];
    library::perform(&mut area, &history::start(random, shape));
    area[3] = clock;
    area
}

/// A sound area at a clock, made without calls.
fn scattered(random: &mut Random, shape: Shape, clock: u16) -> Vec<u16> {
    let mut state = sample::state(random, shape);
    state.clock = clock;
    state.words()
}

/// None, the fewest, the most, or a few: near the clock's end as many as lead to clock 0, too.
fn few_or_most(random: &mut Random, clock: u16) -> u16 {
    match random.below(8) {
        0 => 0,
        1 => 1,
        2 => 2,
        3 => 65_535,
        4 | 5 if clock > 65_500 => clock.wrapping_neg(),
        _ => random.between(3, 20),
    }
}

/// All sorts of calls, near the clock's end and elsewhere.
fn short_sleeps(tally: &mut Tally, random: &mut Random, met: &mut Met) -> Outcome {
    for turn in 0..3_000 {
        let shape = Shape {
            processes: random.between(2, 9),
            locks: random.between(1, 2),
            conditions: random.between(1, 3),
            parks: random.between(0, 1),
        };
        let clock = [random.between(65_476, 65_535), random.word()][turn / 2 % 2];
        let area = [fresh, scattered][turn % 2](random, shape, clock);
        let mut run = Run::new(area);
        let mut history = History::new(5, 30);
        for _ in 0..200 {
            let state = run.state()?;
            let mut call = history.next(random, &state);
            if let Call::Wait { ticks, .. } = &mut call {
                *ticks = few_or_most(random, state.clock);
            }
            run.call(tally, &call, met)?;
        }
    }
    Ok(())
}

/// Three wait 65,535 ticks on a condition where no call wakes anybody and which is never abortable,
/// and the others go on, alarms among their calls.
fn long_sleeps(tally: &mut Tally, random: &mut Random, met: &mut Met) -> Outcome {
    let shape = Shape {
        processes: 6,
        locks: 1,
        conditions: 2,
        parks: 1,
    };
    let wait = Call::Wait {
        lock: 1,
        condition: 1,
        ticks: 65_535,
    };
    for clock in [0, 1, 2, 32_768, 65_533, 65_534, 65_535, random.word()] {
        let mut run = Run::new(fresh(random, shape, clock));
        for pause in [0, 1, 2] {
            run.call(tally, &Call::Enter(1), met)?;
            run.call(tally, &wait, met)?;
            for _ in 0..pause {
                run.call(tally, &Call::Tick, met)?;
            }
        }
        let mut history = History::new(5, 0);
        for _ in 0..65_536 {
            if random.chance(2) {
                let call = history.next(random, &run.state()?);
                if !wakes(&call, 0, 1) && call != Call::set_abortable(1, 1) {
                    run.call(tally, &call, met)?;
                }
            }
            run.call(tally, &Call::Tick, met)?;
        }
    }
    Ok(())
}
