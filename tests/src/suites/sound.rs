//! Sound on the library against the reference's checker, on sound, damaged and random areas.

use super::{Outcome, Tally};
use crate::damage::{self, BREAKS};
use crate::guarded::Guarded;
use crate::history::{self, History};
use crate::library;
use crate::random::Random;
use crate::reference::{self, Lock, Queue, Shape, State};
use crate::sample;

/// How often each verdict was given.
#[derive(Default)]
struct Verdicts {
    yes: u64,
    no: u64,
}

struct Check<'a> {
    tally: &'a mut Tally,
    verdicts: Verdicts,
}

impl Check<'_> {
    fn area(&mut self, area: &[u16], what: &str) -> Outcome {
        self.lent(&mut Guarded::new(area), what)
    }

    fn lent(&mut self, lent: &mut Guarded, what: &str) -> Outcome {
        let before = lent.slice().to_vec();
        let expected = reference::sound(&before);
        let place = || format!("{what}: {before:x?}");
        let found = library::sound(lent.slice());
        self.tally.same(&found, &u64::from(expected), place)?;
        self.tally.same(lent.slice(), &before[..], place)?;
        self.tally
            .holds(lent.intact(), || format!("guard words, {}", place()))?;
        if expected {
            self.verdicts.yes += 1;
        } else {
            self.verdicts.no += 1;
        }
        Ok(())
    }
}

pub fn run(tally: &mut Tally, random: &mut Random) -> Outcome {
    let mut check = Check {
        tally,
        verdicts: Verdicts::default(),
    };
    plain_areas(&mut check, random)?;
    short_areas(&mut check, random)?;
    let mut states = reached_states(random);
    states.push(each_place());
    for state in states {
        every_bit(&mut check, &state)?;
        every_length(&mut check, random, &state)?;
        every_swap(&mut check, random, &state)?;
        some_damage(&mut check, random, &state, 2000)?;
    }
    every_flags_word(&mut check)?;
    every_condition_word(&mut check)?;
    every_word(&mut check, random)?;
    every_ring(&mut check, random)?;
    scattered_states(&mut check, random)?;
    let Verdicts { yes, no } = check.verdicts;
    tally.remark = format!(", {yes} areas sound, {no} not");
    if yes < 50_000 || no < 50_000 {
        return Err(format!("a verdict is rare{}", tally.remark));
    }
    Ok(())
}

fn plain_areas(check: &mut Check, random: &mut Random) -> Outcome {
    for length in (0..=20).chain([100, 4096, 65_535, 65_536, 65_537, 70_000]) {
        check.area(&vec![0; length], "all zero")?;
        check.area(&vec![0xFFFF; length], "all ones")?;
        for _ in 0..20 {
            check.area(&random.words(length), "random words")?;
        }
    }
    Ok(())
}

/// Areas of at most 20 words with small counts and small numbers, some of them sound.
fn short_areas(check: &mut Check, random: &mut Random) -> Outcome {
    for _ in 0..100_000 {
        let length = random.below(21);
        let mut area: Vec<u16> = (0..length)
            .map(|_| match random.below(5) {
                0 | 1 => 0,
                2 => random.between(0, 3) << 3,
                3 => random.between(0, 3) << 1,
                _ => random.between(0, 1) << 3 | random.between(0, 1) << random.below(16),
            })
            .collect();
        if length >= 3 {
            area[0] = random.between(0, 4);
            area[1] = random.between(0, 1) << 8 | random.between(0, 1);
            area[2] = random.between(0, 1) << 12;
        }
        check.area(&area, "short area")?;
    }
    Ok(())
}

/// Sound states that histories reach, small ones and one of the greatest size.
fn reached_states(random: &mut Random) -> Vec<State> {
    let shapes = [
        (1, 0, 0, 0, 30),
        (3, 1, 1, 0, 40),
        (4, 2, 2, 2, 200),
        (8, 3, 3, 2, 300),
        (12, 2, 3, 8, 400),
        (1023, 2, 2, 1, 400),
    ];
    shapes
        .iter()
        .map(|&(processes, locks, conditions, parks, calls)| {
            let shape = Shape {
                processes,
                locks,
                conditions,
                parks,
            };
            reach(random, shape, calls)
        })
        .collect()
}

fn reach(random: &mut Random, shape: Shape, calls: usize) -> State {
    let mut area = vec![0; shape.size()];
    reference::perform(&mut area, &history::start(random, shape));
    let mut history = History::new(0, 0);
    for _ in 0..calls {
        let state = reference::read(&area).expect("a history keeps the area sound");
        let call = history.next(random, &state);
        reference::perform(&mut area, &call);
    }
    reference::read(&area).expect("a history keeps the area sound")
}

/// 1 runs, 2 is ready, 3 is parked, 4 queues at the lock that 1 holds; the others wait on the first
/// condition: 5 unarmed, 6 armed with timer 0, 7 armed with another. Nobody waits on the second.
fn each_place() -> State {
    let shape = Shape {
        processes: 7,
        locks: 1,
        conditions: 2,
        parks: 1,
    };
    let mut state = State::fresh(shape, &[4; 7]);
    state.clock = 65_530;
    state.running = 1;
    state.ready = vec![1, 2];
    state.parks[0] = vec![3];
    state.locks[0] = Lock {
        queue: vec![4],
        locked: true,
        holder: 1,
    };
    state.conditions[0].queue = vec![5, 6, 7];
    state.record_mut(4).failed = true;
    for process in 5..=7 {
        state.record_mut(process).waiting = true;
    }
    state.record_mut(6).arm(0);
    state.record_mut(7).arm(65_531);
    state
}

/// The flags with which each of them may stand there.
const RIGHT_FLAGS: [&[u16]; 7] = [
    &[0, 1],
    &[0, 1],
    &[0, 1],
    &[0, 1],
    &[2, 3, 6, 7],
    &[2, 3, 6, 7],
    &[6, 7],
];

/// The words that each condition may have there: with each of the three as the tail, who are equals,
/// abortable or not; and without a tail, abortable or not, with a wakeup or not.
const RIGHT_CONDITIONS: [&[u16]; 2] = [&[40, 42, 48, 50, 56, 58], &[0, 1, 2, 3]];

/// Every value of every flags word, each bit flipped among them, with the verdict written out.
fn every_flags_word(check: &mut Check) -> Outcome {
    let state = each_place();
    let mut lent = Guarded::new(&state.words());
    for (process, right) in (1..).zip(RIGHT_FLAGS) {
        let place = state.shape.link_at(process) + 1;
        let kept = lent.slice()[place];
        for word in 0..=u16::MAX {
            lent.slice_mut()[place] = word;
            let found = reference::sound(lent.slice());
            check.tally.same(&found, &right.contains(&word), || {
                format!("flags {word:x} of process {process}")
            })?;
            check.lent(&mut lent, "one flags word replaced")?;
        }
        lent.slice_mut()[place] = kept;
    }
    Ok(())
}

/// Every value of every condition's word, with the verdict written out.
fn every_condition_word(check: &mut Check) -> Outcome {
    let state = each_place();
    let mut lent = Guarded::new(&state.words());
    for (condition, right) in (1..).zip(RIGHT_CONDITIONS) {
        let place = state.shape.tail_at(Queue::Condition(condition));
        let kept = lent.slice()[place];
        for word in 0..=u16::MAX {
            lent.slice_mut()[place] = word;
            let found = reference::sound(lent.slice());
            check.tally.same(&found, &right.contains(&word), || {
                format!("word {word:x} of condition {condition}")
            })?;
            check.lent(&mut lent, "one condition's word replaced")?;
        }
        lent.slice_mut()[place] = kept;
    }
    Ok(())
}

fn every_bit(check: &mut Check, state: &State) -> Outcome {
    let mut lent = Guarded::new(&state.words());
    check.lent(&mut lent, "whole")?;
    for place in 0..state.shape.size() {
        for bit in 0..16 {
            lent.slice_mut()[place] ^= 1 << bit;
            check.lent(&mut lent, "one bit flipped")?;
            lent.slice_mut()[place] ^= 1 << bit;
        }
    }
    Ok(())
}

fn every_length(check: &mut Check, random: &mut Random, state: &State) -> Outcome {
    let mut words = state.words();
    for length in 0..=words.len() {
        check.area(&words[..length], "cut off")?;
    }
    for _ in 0..20 {
        words.push(random.word());
        check.area(&words, "with words beyond")?;
    }
    let size = state.shape.size();
    words.extend(random.words(65_536));
    for length in [65_535, 65_536, 65_537, 65_535 + size, 65_536 + size] {
        check.area(&words[..length], "with many words beyond")?;
    }
    Ok(())
}

fn every_swap(check: &mut Check, random: &mut Random, state: &State) -> Outcome {
    let words = state.words();
    let some = (0..3000).map(|_| (random.below(words.len()), random.below(words.len())));
    for (one, other) in some {
        let mut area = words.clone();
        area.swap(one, other);
        check.area(&area, "two words swapped")?;
    }
    Ok(())
}

fn some_damage(check: &mut Check, random: &mut Random, state: &State, times: usize) -> Outcome {
    let words = state.words();
    for _ in 0..times {
        let mut area = words.clone();
        damage::blind(random, &state.shape, &mut area);
        check.area(&area, "blind damage")?;
    }
    for _ in 0..times / 4 {
        let mut area = words.clone();
        damage::flip_free(random, &state.shape, &mut area);
        check.area(&area, "a free bit flipped")?;
        damage::set_unnamed(random, &state.shape, &mut area);
        check.area(&area, "an unnamed bit set")?;
    }
    for (name, change) in BREAKS {
        for _ in 0..times / 50 {
            let mut worse = state.clone();
            if change(random, &mut worse).is_some() {
                check.area(&worse.words(), name)?;
            }
        }
    }
    Ok(())
}

/// Every value of every word of a small sound area.
fn every_word(check: &mut Check, random: &mut Random) -> Outcome {
    let shape = Shape {
        processes: 2,
        locks: 1,
        conditions: 1,
        parks: 1,
    };
    let mut lent = Guarded::new(&sample::state(random, shape).words());
    for place in 0..shape.size() {
        let kept = lent.slice()[place];
        for word in 0..=u16::MAX {
            lent.slice_mut()[place] = word;
            check.lent(&mut lent, "one word replaced")?;
        }
        lent.slice_mut()[place] = kept;
    }
    Ok(())
}

/// Every choice of running, two tails and four links, over three rows of priorities.
fn every_ring(check: &mut Check, random: &mut Random) -> Outcome {
    for highest in [0, 1, 7] {
        let priorities: Vec<u16> = (0..4).map(|_| random.between(0, highest)).collect();
        let mut lent =
            Guarded::new(&[4, 0, 0x1000, 9, 0, 0, 0, 0, 0, 0, 0, 0, 0, 0, 0, 0, 0, 0, 0]);
        for choice in 0..5_u32.pow(7) {
            let digit = |place: u32| (choice / 5_u32.pow(place) % 5) as u16;
            let area = lent.slice_mut();
            for place in 0..3 {
                area[4 + place as usize] = digit(place) << 3;
            }
            for place in 0..4 {
                area[7 + 3 * place as usize] =
                    priorities[place as usize] << 13 | digit(3 + place) << 3;
            }
            check.lent(&mut lent, "rings of four")?;
        }
    }
    Ok(())
}

/// Sound states made without calls, whole and damaged.
fn scattered_states(check: &mut Check, random: &mut Random) -> Outcome {
    for _ in 0..60_000 {
        let shape = sample::small_shape(random);
        let state = sample::state(random, shape);
        check.area(&state.words(), "scattered")?;
        some_damage(check, random, &state, 4)?;
        check.area(&damage::wrong_count(random), "wrong count")?;
        let (name, change) = random.pick(&BREAKS);
        let mut worse = state;
        if change(random, &mut worse).is_some() {
            check.area(&worse.words(), name)?;
        }
    }
    for _ in 0..20 {
        let shape = Shape {
            processes: random.between(900, 1023),
            locks: random.between(0, 255),
            conditions: random.between(0, 255),
            parks: random.between(0, 8),
        };
        let state = sample::state(random, shape);
        check.area(&state.words(), "scattered, large")?;
        some_damage(check, random, &state, 50)?;
    }
    Ok(())
}
