//! The twelve calls on the library against the reference, the whole area and the whole answer
//! after each call; histories against the ledger too, with due, nearest and the sheet after
//! each call.

use super::{ledger, sheet, timers, Outcome, Tally};
use crate::call::{Answer, Call};
use crate::damage;
use crate::guarded::Guarded;
use crate::history;
use crate::library;
use crate::random::Random;
use crate::reference::{self, State};
use crate::sample;

pub fn run(tally: &mut Tally, random: &mut Random) -> Outcome {
    ledger::histories(tally, random, |tally, lent, call| {
        let answer = compare(tally, lent, call)?;
        timers::reads(tally, lent)?;
        sheet::reads(tally, lent)?;
        Ok(answer)
    })?;
    scattered_states(tally, random)?;
    crowds(tally, random)?;
    boundaries(tally, random)?;
    every_number(tally)?;
    long_areas(tally, random)?;
    damaged_areas(tally, random)
}

/// One call on the library's area and on a copy by the reference.
fn compare(tally: &mut Tally, lent: &mut Guarded, call: &Call) -> Result<Answer, String> {
    let before = lent.slice().to_vec();
    let mut expected = before.clone();
    let answer = reference::perform(&mut expected, call);
    let found = library::perform(lent.slice_mut(), call);
    let place = || format!("{call:?} on {before:x?}");
    tally.same(&found, &answer.pack(), place)?;
    tally.same(lent.slice(), &expected[..], place)?;
    tally.holds(lent.intact(), || format!("guard words, {}", place()))?;
    Ok(answer)
}

/// Calls on sound states that were made without calls.
fn scattered_states(tally: &mut Tally, random: &mut Random) -> Outcome {
    for _ in 0..150_000 {
        let shape = sample::small_shape(random);
        let state = sample::state(random, shape);
        let mut lent = Guarded::new(&state.words());
        for _ in 0..4 {
            let call = history::any_call(random, &shape, 8);
            compare(tally, &mut lent, &call)?;
        }
    }
    Ok(())
}

/// Broadcasts, ticks and aborts on areas of all sizes, where many wait on few conditions or on many.
fn crowds(tally: &mut Tally, random: &mut Random) -> Outcome {
    for _ in 0..600 {
        let shape = sample::wide_shape(random);
        let state = sample::state(random, shape);
        let mut lent = Guarded::new(&state.words());
        for _ in 0..10 {
            let call = match random.below(4) {
                0 => Call::Tick,
                1 | 2 => Call::Abort(random.between(1, shape.processes)),
                _ => Call::Broadcast(random.between(1, shape.conditions)),
            };
            compare(tally, &mut lent, &call)?;
        }
    }
    Ok(())
}

/// All calls with this number in each of their places.
fn with_number(state: &State, number: u16) -> Vec<Call> {
    let held = state
        .locks
        .iter()
        .position(|one| one.holder == state.running);
    let lock = held.map_or(1, |place| place as u16 + 1);
    let other = if lock == 1 { 2 } else { 1 };
    let wait = |lock, condition| Call::wait(lock, condition, 5);
    vec![
        Call::Enter(number),
        Call::Exit(number),
        wait(number, 1),
        wait(lock, number),
        Call::Notify(number),
        Call::Broadcast(number),
        Call::Naked(number),
        Call::requeue(number, 0, state.running),
        Call::requeue(0, number, state.running),
        Call::requeue(0, 0, number),
        Call::requeue(1, 0, number),
        Call::SetPriority(number),
        Call::Abort(number),
        Call::set_abortable(number, 1),
        Call::set_abortable(1, number),
        Call::reenter(number, 1),
        Call::reenter(other, number),
    ]
}

/// Every number near a count, and numbers that a narrower type would take for right ones.
fn boundaries(tally: &mut Tally, random: &mut Random) -> Outcome {
    let numbers: Vec<u16> = (0..=20)
        .chain(250..=260)
        .chain(1020..=1030)
        .chain([
            2048, 2049, 8191, 8192, 8193, 8200, 32_768, 32_769, 65_534, 65_535,
        ])
        .collect();
    for round in 0..120 {
        let mut shape = sample::small_shape(random);
        if round % 10 == 0 {
            shape.locks = 255;
            shape.conditions = 254 + round / 10 % 2;
        }
        let state = sample::state(random, shape);
        for &number in &numbers {
            for call in with_number(&state, number) {
                let mut lent = Guarded::new(&state.words());
                compare(tally, &mut lent, &call)?;
            }
        }
    }
    Ok(())
}

/// Each of 1,023 processes alone in ready, on the condition and with the lock: every number as
/// that of who runs, of a holder, of who is called off, in a tail and as a next.
fn every_number(tally: &mut Tally) -> Outcome {
    const MOST: u16 = 1_023;
    let start = Call::Start {
        processes: MOST,
        locks: 1,
        conditions: 1,
        parks: 1,
        priorities: vec![4; usize::from(MOST)],
    };
    let wait = Call::wait(1, 1, 0);
    let parked = (1..=MOST).map(|process| Call::requeue(0, 1, process));
    let parked = parked.chain([Call::set_abortable(1, 1)]);
    let turns = (1..=MOST).flat_map(|process| {
        [
            Call::requeue(1, 0, process),
            Call::Enter(1),
            wait.clone(),
            Call::Naked(1),
            Call::Enter(1),
            wait.clone(),
            Call::Abort(process),
            Call::reenter(1, 1),
            Call::reenter(1, 1),
            Call::Exit(1),
            Call::requeue(0, 1, process),
        ]
    });
    let mut lent = Guarded::new(&[0; 4_096]);
    for call in std::iter::once(start).chain(parked).chain(turns) {
        let answer = compare(tally, &mut lent, &call)?;
        tally.same(&answer.code, &0, || format!("{call:?}"))?;
    }
    Ok(())
}

/// Areas so long that a length cut to 16 bits would be too short.
fn long_areas(tally: &mut Tally, random: &mut Random) -> Outcome {
    for _ in 0..40 {
        let shape = sample::small_shape(random);
        let mut words = sample::state(random, shape).words();
        let beyond = 65_536 + random.below(shape.size()) - words.len();
        words.extend(random.words(beyond));
        let mut lent = Guarded::new(&words);
        for _ in 0..20 {
            let call = history::any_call(random, &shape, 8);
            compare(tally, &mut lent, &call)?;
        }
    }
    Ok(())
}

/// On an area that isn't sound every call answers 1 and changes no word.
fn damaged_areas(tally: &mut Tally, random: &mut Random) -> Outcome {
    let mut refused = 0;
    for round in 0..100_000 {
        let shape = sample::small_shape(random);
        let mut lent = Guarded::new(&damage::area(random, shape, round, 30));
        let call = history::any_call(random, &shape, 8);
        let answer = compare(tally, &mut lent, &call)?;
        refused += u64::from(answer.code == 1);
    }
    if refused < 10_000 {
        return Err(format!("only {refused} calls met an area that isn't sound"));
    }
    Ok(())
}
