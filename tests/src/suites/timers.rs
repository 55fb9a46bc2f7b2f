//! Due and nearest on the library against the reference: every order and number of those told,
//! buffers of every length near the need, timers all around the clock, refusals that change
//! nothing. Then Ticks on the library: whoever is told wakes in its tick and not before.

use super::{Outcome, Tally};
use crate::call::{pack_wide, Call};
use crate::damage;
use crate::guarded::Guarded;
use crate::history;
use crate::library;
use crate::random::Random;
use crate::reference::{self, Queue, Shape, State, Timed};
use crate::sample;

const ROUND: u32 = 65_536;

pub fn run(tally: &mut Tally, random: &mut Random) -> Outcome {
    let mut met = Met::default();
    reference_by_search(tally, random)?;
    scattered_states(tally, random, &mut met)?;
    every_clock(tally, random, &mut met)?;
    every_count(tally, random, &mut met)?;
    long_slices(tally, random, &mut met)?;
    damaged_areas(tally, random, &mut met)?;
    longest_waits(tally)?;
    whole_rounds(tally, random)?;
    sleeps(tally, random)?;
    met.demand()
}

/// What the comparisons met, so that a suite that met too little fails.
#[derive(Default)]
struct Met {
    codes: [u64; 6],
    ties: u64,
    full_rounds: u64,
    at_zero: u64,
    untimed: u64,
}

impl Met {
    fn note(&mut self, clock: u16, timed: &[Timed]) {
        let tie = timed.windows(2).any(|pair| pair[0].left == pair[1].left);
        let until_zero = ROUND - u32::from(clock);
        self.ties += u64::from(tie);
        self.full_rounds += u64::from(timed.iter().any(|one| one.left == ROUND));
        self.at_zero += u64::from(timed.iter().any(|one| one.left == until_zero));
        self.untimed += u64::from(timed.is_empty());
    }

    fn demand(&self) -> Outcome {
        let counts = [
            ("accepted", self.codes[0]),
            ("refused by 1", self.codes[1]),
            ("refused by 5", self.codes[5]),
            ("ties", self.ties),
            ("full rounds", self.full_rounds),
            ("due at clock 0", self.at_zero),
            ("nobody armed", self.untimed),
        ];
        match counts.iter().find(|(_, count)| *count < 500) {
            None => Ok(()),
            Some((what, count)) => Err(format!("hardly met: {what}, {count} times")),
        }
    }
}

/// An area that is read, and what the reference says of it: all who are timed, in order, or
/// nothing if it isn't sound.
struct Read<'a> {
    area: &'a Guarded,
    words: Vec<u16>,
    timed: Option<Vec<Timed>>,
}

impl<'a> Read<'a> {
    fn new(area: &'a Guarded) -> Self {
        let words = area.slice().to_vec();
        let timed = reference::read(&words).map(|state| state.timed());
        Read { area, words, timed }
    }

    fn need(&self, ticks: u16) -> usize {
        let told = |timed: &Vec<Timed>| {
            let all = timed.iter();
            2 * all.filter(|one| one.left <= u32::from(ticks)).count()
        };
        self.timed.as_ref().map_or(0, told)
    }

    /// Due into a buffer of so many words; answers the code.
    fn due(
        &self,
        tally: &mut Tally,
        random: &mut Random,
        ticks: u16,
        length: usize,
    ) -> Result<u32, String> {
        let mut expected = random.words(length);
        let mut buffer = Guarded::new(&expected);
        let (code, count) = match &self.timed {
            None => (1, 0),
            Some(timed) => reference::due(timed, ticks, &mut expected),
        };
        let place = || format!("due {ticks} into {length} words, {:x?}", self.words);
        let found = library::due(self.area.slice(), ticks, buffer.slice_mut());
        tally.same(&found, &pack_wide(&[code, count]), place)?;
        tally.same(buffer.slice(), &expected[..], place)?;
        tally.holds(buffer.intact(), || format!("guard words, {}", place()))?;
        self.unchanged(tally, place)?;
        Ok(code)
    }

    fn nearest(&self, tally: &mut Tally) -> Outcome {
        let expected = match &self.timed {
            None => pack_wide(&[1, 0, 0]),
            Some(timed) => {
                let first = reference::nearest(timed);
                pack_wide(&[0, u32::from(first.process), first.left])
            }
        };
        let place = || format!("nearest, {:x?}", self.words);
        let found = library::nearest(self.area.slice());
        tally.same(&found, &expected, place)?;
        self.unchanged(tally, place)
    }

    fn unchanged(&self, tally: &mut Tally, place: impl Fn() -> String) -> Outcome {
        tally.same(self.area.slice(), &self.words[..], &place)?;
        tally.holds(self.area.intact(), || format!("guard words, {}", place()))
    }
}

/// Both reads of an area that a history has reached, for some numbers of ticks.
pub fn reads(tally: &mut Tally, area: &Guarded) -> Outcome {
    let mut random = Random::new(tally.compared);
    let read = Read::new(area);
    read.nearest(tally)?;
    let small = random.between(2, 12);
    let any = random.word();
    for ticks in [0, 1, small, any, 65_535] {
        let need = read.need(ticks);
        read.due(tally, &mut random, ticks, need)?;
        if need > 0 {
            read.due(tally, &mut random, ticks, need - 1)?;
        }
    }
    Ok(())
}

/// Both reads, at these numbers of ticks and at those where somebody begins to be told, with
/// every length of the buffer up to a few words more than the need, or with some of them.
fn every_length(
    tally: &mut Tally,
    random: &mut Random,
    area: &Guarded,
    numbers: &[u16],
    met: &mut Met,
) -> Outcome {
    let read = Read::new(area);
    read.nearest(tally)?;
    let timed = read.timed.clone().unwrap_or_default();
    met.note(read.words[3], &timed);
    let mut numbers = numbers.to_vec();
    for _ in 0..2 {
        if !timed.is_empty() {
            let left = random.pick(&timed).left;
            numbers.extend(
                [left - 1, left]
                    .iter()
                    .flat_map(|&ticks| u16::try_from(ticks)),
            );
        }
    }
    for ticks in numbers {
        let need = read.need(ticks);
        let mut lengths: Vec<usize> = (0..need + 4).collect();
        if need > 8 {
            lengths = vec![0, 1, need / 2, need - 2, need - 1, need, need + 1, 2 * need];
        }
        for length in lengths {
            let code = read.due(tally, random, ticks, length)?;
            met.codes[code as usize] += 1;
        }
    }
    Ok(())
}

/// The reference's order against a search that goes from tick to tick.
fn reference_by_search(tally: &mut Tally, random: &mut Random) -> Outcome {
    for _ in 0..100 {
        let shape = sample::small_shape(random);
        let state = sample::state(random, shape);
        let mut found = Vec::new();
        for left in 1..=ROUND {
            let time = ((u32::from(state.clock) + left) % ROUND) as u16;
            for process in 1..=shape.processes {
                let record = state.record(process);
                if record.armed && record.timer == time {
                    found.push(Timed { process, left });
                }
            }
        }
        tally.same(&state.timed(), &found, || format!("{state:?}"))?;
    }
    Ok(())
}

/// Sound states that were made without calls.
fn scattered_states(tally: &mut Tally, random: &mut Random, met: &mut Met) -> Outcome {
    for _ in 0..8_000 {
        let shape = sample::small_shape(random);
        let lent = Guarded::new(&sample::state(random, shape).words());
        let any = random.word();
        every_length(tally, random, &lent, &[0, 1, 2, any, 65_535], met)?;
    }
    for _ in 0..40 {
        let shape = sample::wide_shape(random);
        let lent = Guarded::new(&sample::state(random, shape).words());
        every_length(tally, random, &lent, &[0, 1, 2, 65_535], met)?;
    }
    Ok(())
}

/// A state in which all wait on one condition, unarmed, but the first of ready, who runs.
fn all_wait(random: &mut Random, processes: u16, clock: u16) -> State {
    let shape = Shape {
        processes,
        locks: random.between(0, 2),
        conditions: 1,
        parks: random.between(0, 2),
    };
    let start = history::start(random, shape);
    let mut words = vec![0; shape.size()];
    reference::perform(&mut words, &start);
    let mut state = reference::read(&words).expect("a fresh area is sound");
    state.clock = clock;
    state.conditions[0].queue = state.ready.drain(1..).collect();
    for process in state.conditions[0].queue.clone() {
        state.record_mut(process).waiting = true;
    }
    state
}

/// Timers before, at and behind the clock, for clocks at both ends and elsewhere; some wait
/// unarmed.
fn every_clock(tally: &mut Tally, random: &mut Random, met: &mut Met) -> Outcome {
    let clocks = [0, 1, 2, 3, 32_767, 32_768, 65_533, 65_534, 65_535];
    for round in 0..1_800 {
        let clock = clocks[round % clocks.len()];
        let processes = random.between(2, 7);
        let mut state = all_wait(random, processes, clock);
        for process in state.conditions[0].queue.clone() {
            let step = random.between(0, 3);
            let timer = match random.below(7) {
                0 => clock,
                1 => clock.wrapping_add(step),
                2 => clock.wrapping_sub(step),
                3 => clock ^ 0x8000,
                4 => random.pick(&[0, 1, 2, 65_534, 65_535]),
                5 => random.word(),
                _ => continue,
            };
            state.record_mut(process).arm(timer);
        }
        let lent = Guarded::new(&state.words());
        let numbers = [0, 1, 2, 3, 32_767, 32_768, 65_534, 65_535];
        every_length(tally, random, &lent, &numbers, met)?;
    }
    Ok(())
}

/// So many told, in rising, falling and random order and with ties, others between them.
fn every_count(tally: &mut Tally, random: &mut Random, met: &mut Met) -> Outcome {
    let counts = (1..=70).chain([127, 128, 129, 255, 256, 257, 511, 512, 513, 1_021, 1_022]);
    for count in counts {
        for order in 0..5 {
            let others = random.pick(&[0, 0, 1, 5]);
            let clock = random.word();
            let mut state = all_wait(random, (count + 1 + others).min(1_023), clock);
            let mut waiting = state.conditions[0].queue.clone();
            random.shuffle(&mut waiting);
            waiting.truncate(usize::from(count));
            waiting.sort();
            for (place, process) in waiting.into_iter().enumerate() {
                let place = place as u16;
                let left = match order {
                    0 => 1 + place,
                    1 => count - place,
                    2 => random.between(1, 65_535),
                    3 => random.between(1, 4),
                    _ => 7,
                };
                state.record_mut(process).arm(clock.wrapping_add(left));
            }
            let lent = Guarded::new(&state.words());
            every_length(tally, random, &lent, &[65_535], met)?;
        }
    }
    Ok(())
}

/// Areas and buffers so long that a length cut to 16 bits would be too short.
fn long_slices(tally: &mut Tally, random: &mut Random, met: &mut Met) -> Outcome {
    for _ in 0..10 {
        let shape = sample::small_shape(random);
        let mut words = sample::state(random, shape).words();
        let beyond = 65_536 + random.below(shape.size()) - words.len();
        words.extend(random.words(beyond));
        let lent = Guarded::new(&words);
        every_length(tally, random, &lent, &[3, 65_535], met)?;
        let read = Read::new(&lent);
        for length in [65_535, 65_536, 65_537] {
            read.due(tally, random, 65_535, length)?;
        }
    }
    Ok(())
}

/// An area that isn't sound is refused by 1, however short the buffer.
fn damaged_areas(tally: &mut Tally, random: &mut Random, met: &mut Met) -> Outcome {
    for round in 0..20_000 {
        let shape = sample::small_shape(random);
        let lent = Guarded::new(&damage::area(random, shape, round, 50));
        let read = Read::new(&lent);
        read.nearest(tally)?;
        let any = random.word();
        for ticks in [0, any, 65_535] {
            let need = read.need(ticks);
            for length in [0, need.saturating_sub(1), need, 26] {
                let code = read.due(tally, random, ticks, length)?;
                met.codes[code as usize] += 1;
            }
        }
    }
    Ok(())
}

/// At clock 1 a wait of 65,535 ticks falls due at clock 0, and both reads tell it. A timer at the
/// clock, where no Wait sets one, is a full round away: due never tells it, nearest does.
fn longest_waits(tally: &mut Tally) -> Outcome {
    let start = Call::Start {
        processes: 3,
        locks: 1,
        conditions: 1,
        parks: 0,
        priorities: vec![2, 5, 2],
    };
    let wait = Call::Wait {
        lock: 1,
        condition: 1,
        ticks: 65_535,
    };
    let mut area = vec![0; 18];
    let mut buffer = [7_777; 2];
    for call in [start, Call::Tick, Call::Enter(1), wait] {
        let code = library::perform(&mut area, &call) & 1023;
        tally.same(&code, &0, || format!("{call:?}"))?;
    }
    let mut early = area.clone();
    early[3] = 0;
    let full = pack_wide(&[0, 2, ROUND]);
    for ticks in [0, 1, 65_535] {
        let place = || format!("a full round away, {ticks}");
        tally.same(&library::nearest(&early), &full, place)?;
        tally.same(&library::due(&early, ticks, &mut buffer), &0, place)?;
        tally.same(&buffer, &[7_777; 2], place)?;
    }
    library::perform(&mut early, &Call::Tick);
    tally.same(&early, &area, || "a tick later".to_string())?;
    let place = || "65,535 ticks".to_string();
    let nearest = pack_wide(&[0, 2, 65_535]);
    tally.same(&library::nearest(&area), &nearest, place)?;
    tally.same(&library::due(&area, 65_534, &mut buffer), &0, place)?;
    tally.same(&buffer, &[7_777; 2], place)?;
    let told = pack_wide(&[0, 1]);
    tally.same(&library::due(&area, 65_535, &mut buffer), &told, place)?;
    tally.same(&buffer, &[2, 65_535], place)
}

// Ticks.

/// A queue of the library's area, from its first to its last.
pub fn queue(area: &[u16], kind: u16, number: u16) -> Vec<u16> {
    let mut buffer = vec![0; 1_023];
    let count = library::list(area, kind, number, &mut buffer) >> 10;
    buffer.truncate(count as usize);
    buffer
}

/// The members of a queue of the library's area, in process order.
pub fn members(area: &[u16], kind: u16, number: u16) -> Vec<u16> {
    let mut members = queue(area, kind, number);
    members.sort();
    members
}

/// One Tick on the library; answers how many it moved.
fn tick(area: &mut [u16]) -> u64 {
    library::perform(area, &Call::Tick) >> 40 & 1023
}

/// What the library tells, out of its buffer.
fn told(area: &[u16], ticks: u16) -> Vec<Timed> {
    let mut buffer = vec![0; 2 * 1_023];
    let count = library::due(area, ticks, &mut buffer) >> 20;
    let pairs = buffer.chunks(2).take(count as usize);
    pairs
        .map(|pair| Timed {
            process: pair[0],
            left: u32::from(pair[1]),
        })
        .collect()
}

fn told_nearest(area: &[u16]) -> Timed {
    let answer = library::nearest(area);
    Timed {
        process: (answer >> 20 & 0xF_FFFF) as u16,
        left: (answer >> 40) as u32,
    }
}

/// The condition in which a process waits before any Tick.
fn condition_of(state: &State, process: u16) -> Result<u16, String> {
    match state.lies(process) {
        Queue::Condition(number) => Ok(number),
        other => Err(format!("{process} is told and stands in {other:?}")),
    }
}

/// Small areas over a whole round of Ticks. Whoever is told with d left stands in its condition
/// before the d-th and in ready after it; a timer at the clock takes the whole round; nobody else
/// comes into ready.
fn whole_rounds(tally: &mut Tally, random: &mut Random) -> Outcome {
    for processes in [3, 3, 4, 5, 6, 6] {
        let shape = Shape {
            processes,
            locks: 1,
            conditions: 2,
            parks: 1,
        };
        for _ in 0..6 {
            let mut state = sample::state(random, shape);
            if random.chance(50) {
                let clock = random.pick(&[0, 1, 65_535]);
                spread_timers(random, &mut state, clock);
            }
            whole_round(tally, &state)?;
        }
    }
    Ok(())
}

/// The state at another clock, with a few timers near it.
fn spread_timers(random: &mut Random, state: &mut State, clock: u16) {
    state.clock = clock;
    for record in &mut state.records {
        if record.waiting && random.chance(80) {
            let step = random.between(0, 2);
            record.arm(random.pick(&[clock, clock.wrapping_add(step), clock.wrapping_sub(step)]));
        }
    }
}

fn whole_round(tally: &mut Tally, state: &State) -> Outcome {
    let mut area = state.words();
    let nearest = told_nearest(&area);
    let mut wakes = told(&area, 65_535);
    wakes.extend(a_round_away(state));
    tally.same(&nearest, &reference::nearest(&wakes), || {
        format!("nearest of {state:?}")
    })?;
    let mut ready = members(&area, 0, 0);
    for passed in 1..=ROUND {
        let place = || format!("tick {passed} from {state:?}");
        let now: Vec<u16> = wakes
            .iter()
            .filter(|one| one.left == passed)
            .map(|one| one.process)
            .collect();
        for &process in &now {
            let condition = condition_of(state, process)?;
            let waits = members(&area, 3, condition).contains(&process);
            tally.holds(waits, || format!("{process} waits, {}", place()))?;
        }
        tally.same(&tick(&mut area), &(now.len() as u64), place)?;
        ready.extend(now);
        ready.sort();
        tally.same(&members(&area, 0, 0), &ready, place)?;
    }
    Ok(())
}

/// Those whose timer is at the clock.
fn a_round_away(state: &State) -> Vec<Timed> {
    let at_clock = |&process: &u16| {
        let record = state.record(process);
        record.armed && record.timer == state.clock
    };
    let processes = (1..=state.shape.processes).filter(at_clock);
    processes
        .map(|process| Timed {
            process,
            left: ROUND,
        })
        .collect()
}

/// A probe that sleeps as long as nearest says, again and again, sleeps through no wake, until
/// no timer is set; then no Tick of a whole round moves anybody.
fn sleeps(tally: &mut Tally, random: &mut Random) -> Outcome {
    for most in [8, 8, 8, 8, 8, 8, 8, 100] {
        let shape = Shape {
            processes: random.between(3, most),
            locks: 1,
            conditions: 3,
            parks: 0,
        };
        let state = sample::state(random, shape);
        let mut area = state.words();
        let timed = state.timed().len();
        let mut nearest = told_nearest(&area);
        let mut risen = 0;
        while nearest.left != 0 {
            let place = || format!("{nearest:?} from {state:?}");
            for _ in 1..nearest.left {
                tally.same(&tick(&mut area), &0, place)?;
            }
            risen += tick(&mut area) as usize;
            tally.holds(members(&area, 0, 0).contains(&nearest.process), place)?;
            nearest = told_nearest(&area);
        }
        let place = || format!("no timer is left from {state:?}");
        tally.same(&risen, &timed, place)?;
        for _ in 0..ROUND {
            tally.same(&tick(&mut area), &0, place)?;
        }
    }
    Ok(())
}
