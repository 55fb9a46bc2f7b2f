//! Counts what the histories met, so that a suite that met too little fails.

use crate::call::{Answer, Call};
use crate::reference::{Queue, Record, State};
use std::collections::BTreeMap;

#[derive(Default)]
pub struct Coverage {
    met: BTreeMap<String, u64>,
    pub longest_lock_queue: usize,
}

/// Each call with the codes that a sound area can answer.
const CODES: [(&str, &[u16]); 12] = [
    ("enter", &[0, 6, 7, 8]),
    ("exit", &[0, 6, 7, 9]),
    ("wait", &[0, 6, 7, 9]),
    ("notify", &[0, 6, 7]),
    ("broadcast", &[0, 6, 7]),
    ("naked", &[0, 7]),
    ("requeue", &[0, 7, 10]),
    ("setpriority", &[0, 4, 6]),
    ("tick", &[0]),
    ("abort", &[0, 7]),
    ("setabortable", &[0, 7]),
    ("reenter", &[0, 6, 7, 8]),
];

const EVENTS: [&str; 9] = [
    "broadcast moves several",
    "enter of an unlocked lock with a queue",
    "naked where wakeup is set already",
    "notify over an empty ring",
    "requeue within one queue",
    "retry",
    "tick moves several",
    "wait over wakeup among equals",
    "wait whose lock lets one go before the caller",
];

/// How a process joins a lock or a condition.
const JOINS: [&str; 5] = [
    "behind three or more",
    "behind three or more and before others",
    "behind some and before others",
    "behind equals",
    "before all who queue",
];

/// What happens where the clock goes round.
const AT_ZERO: [&str; 3] = [
    "wait due at clock 0",
    "tick to clock 0 wakes",
    "tick to clock 0 passes over who waits unarmed",
];

/// What happens by abort and abortable.
const ALARMS: [&str; 29] = [
    "abort wakes the first of a condition",
    "abort wakes another of a condition",
    "abort wakes who is armed",
    "abort wakes where nobody runs",
    "abort in a condition that isn't abortable",
    "abort at a lock",
    "abort in ready",
    "abort of who runs",
    "abort in a park",
    "abort again",
    "abort again wakes",
    "setabortable to 0",
    "setabortable to 1",
    "setabortable to 0 over an aborted waiter",
    "setabortable to 1 over an aborted waiter",
    "setabortable over wakeup",
    "reenter with mark 1",
    "reenter with mark 1 before a queue",
    "reenter with mark 1 in spite of abort",
    "reenter with mark 2",
    "reenter with mark 2 before a queue",
    "reenter of a held lock",
    "reenter of a held lock with abort, abortable",
    "wait over abort",
    "wait over abort and wakeup",
    "wait over abort with somebody at the lock",
    "wait over abort with nobody at the lock",
    "wait with abort where it isn't abortable",
    "wait over wakeup, abortable",
];

/// Who wakes otherwise keeps its abort, and the condition its abortable.
const KEEPERS: [&str; 4] = ["notify", "broadcast", "naked", "tick"];

/// How often each way to join and each of what happens at clock 0 is demanded.
const OFTEN: u64 = 100;

/// How often each of what happens by abort, and each way to join by Reenter, is demanded.
const SOME: u64 = 30;

/// The events of histories whose clock goes round.
const ROUND: [&str; 3] = [
    "clock goes round",
    "timer set for the next round",
    "tick wakes in a later round",
];

impl Coverage {
    fn meet(&mut self, what: &str) {
        *self.met.entry(what.to_string()).or_default() += 1;
    }

    fn meet_if(&mut self, happened: bool, what: &str) {
        if happened {
            self.meet(what);
        }
    }

    /// Notes an answered call on a sound area and the states before and after it.
    pub fn note(&mut self, before: &State, call: &Call, answer: &Answer, after: &State) {
        self.meet(&format!("{} {}", call.name(), answer.code));
        if answer.code != 0 {
            return;
        }
        for lock in &after.locks {
            self.longest_lock_queue = self.longest_lock_queue.max(lock.queue.len());
        }
        self.meet_if(answer.retry == 1, "retry");
        if KEEPERS.contains(&call.name()) {
            self.note_kept(before, call.name(), after);
        }
        match *call {
            Call::Broadcast(_) => self.meet_if(answer.moved > 1, "broadcast moves several"),
            Call::Tick => self.note_tick(before, answer, after),
            Call::Enter(lock) if answer.mark == 1 => self.meet_if(
                !before.lock(lock).queue.is_empty(),
                "enter of an unlocked lock with a queue",
            ),
            Call::Enter(lock) => self.note_join(before, "enter", Queue::Lock(lock), answer),
            Call::Naked(condition) => self.meet_if(
                before.condition(condition).wakeup,
                "naked where wakeup is set already",
            ),
            Call::Notify(_) => self.meet_if(answer.moved == 0, "notify over an empty ring"),
            Call::Requeue {
                source,
                destination,
                ..
            } => self.meet_if(source == destination, "requeue within one queue"),
            Call::Abort(process) => self.note_abort(before, process, answer),
            Call::SetAbortable { condition, value } => {
                self.note_set_abortable(before, condition, value)
            }
            Call::Reenter { lock, condition } => {
                self.note_reenter(before, lock, condition, answer);
                if answer.mark == 0 {
                    self.note_join(before, "reenter", Queue::Lock(lock), answer);
                }
            }
            Call::Wait {
                lock, condition, ..
            } => {
                if called_off(before, condition) {
                    self.note_called_off(before, lock, condition);
                    return;
                }
                self.note_wait(before, condition, answer, after);
                if answer.mark == 1 {
                    self.note_join(before, "wait", Queue::Condition(condition), answer);
                }
            }
            _ => {}
        }
    }

    fn note_join(&mut self, before: &State, name: &str, queue: Queue, answer: &Answer) {
        let ahead = usize::from(answer.ahead);
        let others = before.queue(queue);
        let priority = |process| before.record(process).priority;
        let equals = others
            .iter()
            .any(|&other| priority(other) == priority(before.running));
        let happened = [
            ahead >= 3,
            (3..others.len()).contains(&ahead),
            (1..others.len()).contains(&ahead),
            equals,
            ahead == 0 && !others.is_empty(),
        ];
        for (happened, how) in happened.into_iter().zip(JOINS) {
            self.meet_if(happened, &format!("{name} {how}"));
        }
    }

    fn note_tick(&mut self, before: &State, answer: &Answer, after: &State) {
        self.meet_if(answer.moved > 1, "tick moves several");
        self.meet_if(after.clock < before.clock, "clock goes round");
        if after.clock == 0 {
            self.meet_if(answer.moved > 0, "tick to clock 0 wakes");
            let unarmed = |record: &Record| record.waiting && !record.armed;
            self.meet_if(
                after.records.iter().any(unarmed),
                "tick to clock 0 passes over who waits unarmed",
            );
        }
        let round = self.met.contains_key("clock goes round");
        self.meet_if(answer.moved > 0 && round, "tick wakes in a later round");
    }

    /// Whoever was woken by the call had abort, or stood in an abortable condition.
    fn note_kept(&mut self, before: &State, name: &str, after: &State) {
        for process in 1..=before.shape.processes {
            if !before.record(process).waiting || after.record(process).waiting {
                continue;
            }
            let kept = before.record(process).abort;
            self.meet_if(kept, &format!("{name} wakes who has abort"));
            if let Queue::Condition(condition) = before.lies(process) {
                let kept = before.condition(condition).abortable;
                self.meet_if(kept, &format!("{name} wakes where it is abortable"));
            }
        }
    }

    fn note_abort(&mut self, before: &State, process: u16, answer: &Answer) {
        let record = before.record(process);
        let place = before.lies(process);
        let wakes = answer.moved == 1;
        let first = before.queue(place).first() == Some(&process);
        let waits = matches!(place, Queue::Condition(_));
        self.meet_if(wakes && first, "abort wakes the first of a condition");
        self.meet_if(wakes && !first, "abort wakes another of a condition");
        self.meet_if(wakes && record.armed, "abort wakes who is armed");
        self.meet_if(
            wakes && before.running == 0,
            "abort wakes where nobody runs",
        );
        self.meet_if(waits && !wakes, "abort in a condition that isn't abortable");
        self.meet_if(matches!(place, Queue::Lock(_)), "abort at a lock");
        self.meet_if(place == Queue::Ready, "abort in ready");
        self.meet_if(process == before.running, "abort of who runs");
        self.meet_if(matches!(place, Queue::Park(_)), "abort in a park");
        self.meet_if(record.abort, "abort again");
        self.meet_if(record.abort && wakes, "abort again wakes");
    }

    fn note_set_abortable(&mut self, before: &State, condition: u16, value: u16) {
        let one = before.condition(condition);
        let over = one
            .queue
            .iter()
            .any(|&process| before.record(process).abort);
        let name = format!("setabortable to {value}");
        self.meet(&name);
        self.meet_if(over, &format!("{name} over an aborted waiter"));
        self.meet_if(one.wakeup, "setabortable over wakeup");
    }

    fn note_reenter(&mut self, before: &State, lock: u16, condition: u16, answer: &Answer) {
        let queued = !before.lock(lock).queue.is_empty();
        let abort = before.record(before.running).abort;
        let off = called_off(before, condition);
        match answer.mark {
            0 => {
                self.meet("reenter of a held lock");
                self.meet_if(off, "reenter of a held lock with abort, abortable");
            }
            mark => {
                let name = format!("reenter with mark {mark}");
                self.meet(&name);
                self.meet_if(queued, &format!("{name} before a queue"));
                self.meet_if(abort, &format!("{name} in spite of abort"));
            }
        }
    }

    /// A Wait whose caller was called off before.
    fn note_called_off(&mut self, before: &State, lock: u16, condition: u16) {
        let queued = !before.lock(lock).queue.is_empty();
        self.meet("wait over abort");
        self.meet_if(
            before.condition(condition).wakeup,
            "wait over abort and wakeup",
        );
        self.meet_if(queued, "wait over abort with somebody at the lock");
        self.meet_if(!queued, "wait over abort with nobody at the lock");
    }

    fn note_wait(&mut self, before: &State, condition: u16, answer: &Answer, after: &State) {
        let caller = before.running;
        self.meet_if(
            answer.mark == 1 && before.record(caller).abort,
            "wait with abort where it isn't abortable",
        );
        self.meet_if(
            answer.mark == 0 && before.condition(condition).abortable,
            "wait over wakeup, abortable",
        );
        let priority = before.record(caller).priority;
        let equals = before.ready[1..]
            .iter()
            .any(|&other| before.record(other).priority == priority);
        self.meet_if(answer.mark == 0 && equals, "wait over wakeup among equals");
        let passed = answer.mark == 1
            && answer.moved == 1
            && after.record(answer.running).priority > priority;
        self.meet_if(passed, "wait whose lock lets one go before the caller");
        if let Queue::Condition(_) = after.lies(caller) {
            let Record { armed, timer, .. } = *after.record(caller);
            self.meet_if(armed && timer == 0, "wait due at clock 0");
            self.meet_if(armed && timer < after.clock, "timer set for the next round");
        }
    }

    /// Each call with each of its codes and each event at least once; each way to join, what
    /// happens at clock 0 and what happens by abort often.
    pub fn demand_all(&self) -> Result<(), String> {
        for (name, codes) in CODES {
            for code in codes {
                self.demand(&format!("{name} {code}"))?;
            }
        }
        for (name, least) in [("enter", OFTEN), ("reenter", SOME), ("wait", OFTEN)] {
            for how in JOINS {
                self.demand_often(&format!("{name} {how}"), least)?;
            }
        }
        for event in AT_ZERO {
            self.demand_often(event, OFTEN)?;
        }
        for event in ALARMS {
            self.demand_often(event, SOME)?;
        }
        for name in KEEPERS {
            self.demand_often(&format!("{name} wakes who has abort"), SOME)?;
            self.demand_often(&format!("{name} wakes where it is abortable"), SOME)?;
        }
        EVENTS.iter().try_for_each(|event| self.demand(event))
    }

    pub fn demand_round(&self) -> Result<(), String> {
        ROUND.iter().try_for_each(|event| self.demand(event))
    }

    fn count(&self, what: &str) -> u64 {
        self.met.get(what).copied().unwrap_or(0)
    }

    fn demand(&self, what: &str) -> Result<(), String> {
        match self.count(what) {
            0 => Err(format!("no history met: {what}")),
            _ => Ok(()),
        }
    }

    fn demand_often(&self, what: &str, least: u64) -> Result<(), String> {
        match self.count(what) {
            count if count >= least => Ok(()),
            count => Err(format!("histories met only {count} times: {what}")),
        }
    }
}

/// Whether who runs has abort, and the condition is abortable.
fn called_off(state: &State, condition: u16) -> bool {
    state.record(state.running).abort && state.condition(condition).abortable
}
