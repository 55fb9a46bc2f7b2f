//! How many stand before a newcomer, with every answer written out: a script of five processes,
//! also through Rehearse, and the longest queues that an area can have.

use super::{rehearse, Outcome, Tally};
use crate::call::Call;
use crate::guarded::Guarded;
use crate::ledger::Ledger;
use crate::library;
use crate::reference;

/// The fields of an answer.
type Fields = [u16; 6];

/// Five processes come to the lock and then to the condition, before lower ones and behind
/// equals. 4 has the lock first, and the park keeps all who are not to run.
const SCRIPT: [(&str, Fields); 26] = [
    ("start 5 1 1 1 3 1 3 5 2", [0, 4, 0, 0, 0, 0]),
    ("enter 1", [0, 4, 0, 1, 0, 0]),
    ("requeue 0 1 4", [0, 1, 0, 0, 0, 0]),
    ("requeue 0 1 1", [0, 3, 0, 0, 0, 0]),
    ("requeue 0 1 3", [0, 5, 0, 0, 0, 0]),
    ("requeue 0 1 5", [0, 2, 0, 0, 0, 0]),
    ("enter 1", [0, 0, 0, 0, 0, 0]),
    ("requeue 1 0 1", [0, 1, 0, 0, 1, 0]),
    ("enter 1", [0, 0, 0, 0, 0, 0]),
    ("requeue 1 0 5", [0, 5, 0, 0, 1, 0]),
    ("enter 1", [0, 0, 0, 0, 0, 1]),
    ("requeue 1 0 3", [0, 3, 0, 0, 1, 0]),
    ("enter 1", [0, 0, 0, 0, 0, 1]),
    ("requeue 1 0 4", [0, 4, 0, 0, 1, 0]),
    ("wait 1 1 0", [0, 1, 1, 1, 1, 0]),
    ("enter 1", [0, 1, 0, 1, 0, 0]),
    ("wait 1 1 0", [0, 3, 1, 1, 1, 1]),
    ("enter 1", [0, 3, 0, 1, 0, 0]),
    ("wait 1 1 0", [0, 5, 1, 1, 1, 2]),
    ("setpriority 4", [0, 5, 0, 0, 0, 0]),
    ("enter 1", [0, 5, 0, 1, 0, 0]),
    ("wait 1 1 0", [0, 2, 1, 1, 1, 1]),
    ("setpriority 3", [0, 2, 0, 0, 0, 0]),
    ("enter 1", [0, 2, 0, 1, 0, 0]),
    ("wait 1 1 0", [0, 0, 0, 1, 0, 4]),
    ("naked 1", [0, 4, 0, 0, 1, 0]),
];

/// The greatest number of processes.
const MOST: u16 = 1_023;

pub fn run(tally: &mut Tally) -> Outcome {
    let mut turns = Vec::new();
    for (line, fields) in SCRIPT {
        turns.push((rehearse::call_of(line.as_bytes()).ok_or(line)?, fields));
    }
    play(tally, &turns)?;
    through_rehearse(tally)?;
    let equal = vec![7; usize::from(MOST)];
    let mixed: Vec<u8> = (0..MOST).map(|place| 7 - (place % 8) as u8).collect();
    for priorities in [equal, mixed] {
        play(tally, &all_at_the_lock(&priorities))?;
        play(tally, &all_at_the_condition(&priorities))?;
    }
    Ok(())
}

fn through_rehearse(tally: &mut Tally) -> Outcome {
    let lines = SCRIPT.map(|(line, _)| format!("{line}\n")).concat();
    let answers = SCRIPT.map(|(_, fields)| rehearse::printed(fields));
    rehearse::play(tally, lines.as_bytes(), &answers)
}

/// Ten bits a field, and what stands above the six.
pub fn unpack(answer: u64) -> [u64; 7] {
    std::array::from_fn(|place| answer >> (10 * place) & 1023)
}

/// A Start and calls, each with its answer, in the ledger, on the reference and on the library.
fn play(tally: &mut Tally, turns: &[(Call, Fields)]) -> Outcome {
    let mut words = vec![0; 8_192];
    let mut lent = Guarded::new(&words);
    let (mut ledger, _) = Ledger::start(&turns[0].0).map_err(|code| format!("refused: {code}"))?;
    for (number, (call, fields)) in turns.iter().enumerate() {
        let place = || format!("call {number}, {call:?}");
        if number > 0 {
            let noted = ledger.call(call).fields();
            tally.same(&noted, fields, || format!("ledger, {}", place()))?;
        }
        let answer = reference::perform(&mut words, call).fields();
        tally.same(&answer, fields, || format!("reference, {}", place()))?;
        let [code, running, retry, mark, moved, ahead] = fields.map(u64::from);
        let found = unpack(library::perform(lent.slice_mut(), call));
        let expected = [code, running, retry, mark, moved, ahead, 0];
        tally.same(&found, &expected, || format!("library, {}", place()))?;
        tally.same(lent.slice(), &words[..], place)?;
    }
    tally.holds(lent.intact(), || "guard words".to_string())
}

/// Start, and all but 1, who runs, go to the park.
fn all_but_one_parked(priorities: &[u8]) -> Vec<(Call, Fields)> {
    let start = Call::Start {
        processes: MOST,
        locks: 1,
        conditions: 1,
        parks: 1,
        priorities: priorities.to_vec(),
    };
    let parked = (2..=MOST).map(|process| Call::requeue(0, 1, process));
    let calls = std::iter::once(start).chain(parked);
    calls.map(|call| (call, [0, 1, 0, 0, 0, 0])).collect()
}

/// How many of those who came before it, from `first` on, stay before a newcomer.
fn before(priorities: &[u8], first: u16, newcomer: u16) -> u16 {
    let priority = |process: u16| priorities[usize::from(process) - 1];
    let stays = |&other: &u16| priority(other) >= priority(newcomer);
    (first..newcomer).filter(stays).count() as u16
}

/// 1 has the lock, and all others come out of the park and queue for it.
fn all_at_the_lock(priorities: &[u8]) -> Vec<(Call, Fields)> {
    let mut turns = all_but_one_parked(priorities);
    turns.push((Call::Enter(1), [0, 1, 0, 1, 0, 0]));
    turns.push((Call::requeue(0, 1, 1), [0, 0, 0, 0, 0, 0]));
    for process in 2..=MOST {
        let ahead = before(priorities, 2, process);
        turns.push((Call::requeue(1, 0, process), [0, process, 0, 0, 1, 0]));
        turns.push((Call::Enter(1), [0, 0, 0, 0, 0, ahead]));
    }
    turns
}

/// All come out of the park and wait on the condition.
fn all_at_the_condition(priorities: &[u8]) -> Vec<(Call, Fields)> {
    let mut turns = all_but_one_parked(priorities);
    turns.push((Call::requeue(0, 1, 1), [0, 0, 0, 0, 0, 0]));
    for process in 1..=MOST {
        let ahead = before(priorities, 1, process);
        let wait = Call::Wait {
            lock: 1,
            condition: 1,
            ticks: 0,
        };
        turns.push((Call::requeue(1, 0, process), [0, process, 0, 0, 1, 0]));
        turns.push((Call::Enter(1), [0, process, 0, 1, 0, 0]));
        turns.push((wait, [0, 0, 0, 1, 0, ahead]));
    }
    turns
}
