//! The definition's table: its nine lines, its eighteen words and every number beside them.

use super::{Outcome, Tally};
use crate::call::{Answer, Call};
use crate::ledger::Ledger;
use crate::reference::{self, Shape};

/// Does a call and answers the packed number.
pub type Perform = fn(&mut [u16], &Call) -> u64;

const WORDS: [u16; 18] = [
    0x0003, 0x0101, 0x0000, 0x0000, 0x0010, 0x0018, 0x0000, 0x0000, 0x0000, 0x4018, 0x0000, 0x0000,
    0xA008, 0x0000, 0x0000, 0x4010, 0x0000, 0x0000,
];

fn start(counts: [u16; 4], priorities: &[u8]) -> Call {
    Call::Start {
        processes: counts[0],
        locks: counts[1],
        conditions: counts[2],
        parks: counts[3],
        priorities: priorities.to_vec(),
    }
}

fn example() -> Call {
    start([3, 1, 1, 0], &[2, 5, 2])
}

pub fn lines() -> Vec<(Call, Answer)> {
    let wait = Call::Wait {
        lock: 1,
        condition: 1,
        ticks: 0,
    };
    vec![
        (example(), Answer::of([0, 2, 0, 0, 0, 0])),
        (Call::Enter(1), Answer::of([0, 2, 0, 1, 0, 0])),
        (wait, Answer::of([0, 1, 0, 1, 0, 0])),
        (Call::Enter(1), Answer::of([0, 1, 0, 1, 0, 0])),
        (Call::Notify(1), Answer::of([0, 2, 0, 0, 1, 0])),
        (Call::Enter(1), Answer::of([0, 1, 0, 0, 0, 0])),
        (Call::Exit(1), Answer::of([0, 2, 1, 0, 1, 0])),
        (Call::Exit(1), Answer::of([9, 0, 0, 0, 0, 0])),
        (Call::Enter(1), Answer::of([0, 2, 0, 1, 0, 0])),
    ]
}

fn reference(area: &mut [u16], call: &Call) -> u64 {
    reference::perform(area, call).pack()
}

pub fn on_reference(tally: &mut Tally) -> Outcome {
    packing(tally)?;
    ledger_lines(tally)?;
    on(tally, reference)
}

pub fn on_library(tally: &mut Tally) -> Outcome {
    on(tally, crate::library::perform)
}

fn on(tally: &mut Tally, perform: Perform) -> Outcome {
    nine_lines(tally, perform)?;
    eighteen_words(tally, perform)?;
    limits(tally, perform)?;
    locks(tally, perform)?;
    timers(tally, perform)
}

fn packing(tally: &mut Tally) -> Outcome {
    let packed = Answer::of([1, 2, 3, 4, 5, 6]).pack();
    let expected = 1 + (2 << 10) + (3 << 20) + (4 << 30) + (5 << 40) + (6 << 50);
    tally.same(&packed, &expected, || "packing".to_string())
}

fn ledger_lines(tally: &mut Tally) -> Outcome {
    let (mut ledger, first) =
        Ledger::start(&example()).map_err(|code| format!("refused: {code}"))?;
    let lines = lines();
    tally.same(&first, &lines[0].1, || "ledger, start".to_string())?;
    for (call, expected) in &lines[1..] {
        tally.same(&ledger.call(call), expected, || format!("ledger, {call:?}"))?;
    }
    Ok(())
}

/// Compares one call's answer.
fn row(
    tally: &mut Tally,
    perform: Perform,
    area: &mut [u16],
    call: &Call,
    expected: u64,
) -> Outcome {
    tally.same(&perform(area, call), &expected, || format!("{call:?}"))
}

fn nine_lines(tally: &mut Tally, perform: Perform) -> Outcome {
    let mut area = vec![0; 8192];
    for (call, expected) in lines() {
        row(tally, perform, &mut area, &call, expected.pack())?;
    }
    Ok(())
}

fn eighteen_words(tally: &mut Tally, perform: Perform) -> Outcome {
    let mut area = vec![0xFFFF; 19];
    row(tally, perform, &mut area[..17], &example(), 5)?;
    tally.same(&area, &vec![0xFFFF; 19], || "seventeen words".to_string())?;
    row(tally, perform, &mut area[..18], &example(), 2 << 10)?;
    tally.same(&area[..18], &WORDS[..], || "eighteen words".to_string())?;
    tally.same(&area[18], &0xFFFF, || "the word behind them".to_string())
}

fn limits(tally: &mut Tally, perform: Perform) -> Outcome {
    let many = [0; 1024];
    let rows = [
        (start([1023, 0, 0, 0], &many[..1023]), 1 << 10),
        (start([0, 0, 0, 0], &[]), 2),
        (start([1024, 0, 0, 0], &many), 2),
        (start([1, 0, 0, 8], &[7]), 1 << 10),
        (start([1, 0, 0, 9], &[7]), 2),
        (start([1, 0, 0, 0], &[8]), 4),
    ];
    for (call, expected) in rows {
        row(tally, perform, &mut vec![0; 8192], &call, expected)?;
    }
    Ok(())
}

fn locks(tally: &mut Tally, perform: Perform) -> Outcome {
    for lock in [0, 2] {
        let wait = Call::Wait {
            lock,
            condition: 1,
            ticks: 0,
        };
        for call in [
            Call::Enter(lock),
            Call::Exit(lock),
            wait,
            Call::reenter(lock, 1),
        ] {
            row(tally, perform, &mut WORDS.to_vec(), &call, 7)?;
        }
    }
    Ok(())
}

fn timers(tally: &mut Tally, perform: Perform) -> Outcome {
    let shape = Shape {
        processes: 3,
        locks: 1,
        conditions: 1,
        parks: 0,
    };
    let flags_at = shape.link_at(2) + 1;
    for (clock, ticks, flags, timer) in [
        (65_534, 1, 6, 65_535),
        (65_535, 1, 6, 0),
        (65_535, 2, 6, 1),
        (65_535, 0, 2, 0),
    ] {
        let mut area = WORDS.to_vec();
        area[3] = clock;
        let wait = Call::Wait {
            lock: 1,
            condition: 1,
            ticks,
        };
        row(
            tally,
            perform,
            &mut area,
            &Call::Enter(1),
            Answer::of([0, 2, 0, 1, 0, 0]).pack(),
        )?;
        row(
            tally,
            perform,
            &mut area,
            &wait,
            Answer::of([0, 1, 0, 1, 0, 0]).pack(),
        )?;
        tally.same(&area[flags_at..flags_at + 2], &[flags, timer][..], || {
            format!("clock {clock}, t {ticks}")
        })?;
    }
    Ok(())
}
