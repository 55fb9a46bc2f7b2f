//! The arrival ledger: notes of arrivals, oldest first, and plain fields. It stores no links
//! and never sees the area. Its rules are a text of their own.

use crate::call::{Answer, Call};

#[derive(Clone, Copy, PartialEq, Eq, Debug)]
pub enum Place {
    Ready,
    Park(u16),
    Lock(u16),
    Condition(u16),
}

pub struct Ledger {
    processes: u16,
    locks: u16,
    conditions: u16,
    parks: u16,
    notes: Vec<(u16, Place)>,
    pub clock: u16,
    pub running: u16,
    // Fields by number; the element at 0 stands for none and is never used.
    pub priority: Vec<u16>,
    pub timer: Vec<u16>,
    pub armed: Vec<bool>,
    pub failed: Vec<bool>,
    pub holder: Vec<u16>,
    pub wakeup: Vec<bool>,
    pub abort: Vec<bool>,
    pub abortable: Vec<bool>,
}

impl Ledger {
    /// Start: the ledger and the answer, or the refusal's code.
    pub fn start(start: &Call) -> Result<(Ledger, Answer), u16> {
        let &Call::Start {
            processes,
            locks,
            conditions,
            parks,
            ref priorities,
        } = start
        else {
            panic!("a history begins with Start");
        };
        if processes == 0 || processes > 1023 || locks > 255 || conditions > 255 || parks > 8 {
            return Err(2);
        }
        if priorities.len() != processes as usize {
            return Err(3);
        }
        if priorities.iter().any(|&priority| priority >= 8) {
            return Err(4);
        }
        let mut priority = vec![0];
        priority.extend(priorities.iter().map(|&byte| byte as u16));
        let mut ledger = Ledger {
            processes,
            locks,
            conditions,
            parks,
            notes: (1..=processes)
                .map(|process| (process, Place::Ready))
                .collect(),
            clock: 0,
            running: 0,
            priority,
            timer: vec![0; processes as usize + 1],
            armed: vec![false; processes as usize + 1],
            failed: vec![false; processes as usize + 1],
            holder: vec![0; locks as usize + 1],
            wakeup: vec![false; conditions as usize + 1],
            abort: vec![false; processes as usize + 1],
            abortable: vec![false; conditions as usize + 1],
        };
        let answer = ledger.dispatch(0, 0, 0);
        Ok((ledger, answer))
    }

    /// For each process the place of its newest note in the list.
    fn newest(&self) -> Vec<usize> {
        let mut newest = vec![0; self.processes as usize + 1];
        for (age, note) in self.notes.iter().enumerate() {
            newest[note.0 as usize] = age;
        }
        newest
    }

    fn lies(&self, process: u16) -> Place {
        let note = self.notes.iter().rev().find(|note| note.0 == process);
        note.expect("every process has a fresh note").1
    }

    /// The processes lying in a place, by falling priority, then by newest note, older first.
    pub fn queue(&self, place: Place) -> Vec<u16> {
        let newest = self.newest();
        let mut members: Vec<u16> = (1..=self.processes)
            .filter(|&process| self.notes[newest[process as usize]].1 == place)
            .collect();
        members.sort_by(|&a, &b| {
            let (a, b) = (a as usize, b as usize);
            self.priority[b]
                .cmp(&self.priority[a])
                .then(newest[a].cmp(&newest[b]))
        });
        members
    }

    /// How many are read before a process in the queue in which it lies.
    fn ahead(&self, process: u16) -> u16 {
        let queue = self.queue(self.lies(process));
        queue.iter().take_while(|&&other| other != process).count() as u16
    }

    pub fn locked(&self, lock: u16) -> bool {
        self.holder[lock as usize] != 0
    }

    pub fn waiting(&self, process: u16) -> bool {
        matches!(self.lies(process), Place::Condition(_))
    }

    /// Who waits armed, each with its ticks left, the earliest first, equals by number.
    pub fn timed(&self) -> Vec<(u16, u32)> {
        let mut timed: Vec<(u16, u32)> = (1..=self.processes)
            .filter(|&process| self.armed[process as usize] && self.waiting(process))
            .map(|process| {
                let behind = self.timer[process as usize].wrapping_sub(self.clock);
                (process, if behind == 0 { 65_536 } else { behind as u32 })
            })
            .collect();
        timed.sort_by_key(|entry| entry.1);
        timed
    }

    /// Adds a note; answers 1 if the process came into ready from another queue.
    fn note(&mut self, process: u16, place: Place) -> u16 {
        let before = self.lies(process);
        self.notes.push((process, place));
        (place == Place::Ready && before != Place::Ready) as u16
    }

    fn wake(&mut self, process: u16) -> u16 {
        self.armed[process as usize] = false;
        self.timer[process as usize] = 0;
        self.note(process, Place::Ready)
    }

    fn dispatch(&mut self, mark: u16, moved: u16, ahead: u16) -> Answer {
        self.running = *self.queue(Place::Ready).first().unwrap_or(&0);
        let retry = std::mem::take(&mut self.failed[self.running as usize]);
        Answer {
            code: 0,
            running: self.running,
            retry: retry as u16,
            mark,
            moved,
            ahead,
        }
    }

    /// Does one of the twelve calls and answers it.
    pub fn call(&mut self, call: &Call) -> Answer {
        let refusal = self.refusal(call);
        if refusal != 0 {
            return Answer::refusal(refusal);
        }
        let caller = self.running;
        let (mark, moved) = self.effect(call);
        let ahead = match (call, mark) {
            (Call::Enter(_) | Call::Reenter { .. }, 0) => self.ahead(caller),
            (Call::Wait { .. }, 1) => self.ahead(caller),
            _ => 0,
        };
        self.dispatch(mark, moved, ahead)
    }

    /// The first code that applies, 0 if none does.
    fn refusal(&self, call: &Call) -> u16 {
        let idle = self.running == 0;
        let no_lock = |lock: u16| !(1..=self.locks).contains(&lock);
        let no_condition = |condition: u16| !(1..=self.conditions).contains(&condition);
        let holds = |lock: u16| self.holder[lock as usize] == self.running;
        match *call {
            Call::Start { .. } => panic!("a history has one Start, at its beginning"),
            Call::Enter(_) if idle => 6,
            Call::Enter(lock) if no_lock(lock) => 7,
            Call::Enter(lock) if holds(lock) => 8,
            Call::Exit(_) if idle => 6,
            Call::Exit(lock) if no_lock(lock) => 7,
            Call::Exit(lock) if !holds(lock) => 9,
            Call::Wait { .. } if idle => 6,
            Call::Wait {
                lock, condition, ..
            } if no_lock(lock) || no_condition(condition) => 7,
            Call::Wait { lock, .. } if !holds(lock) => 9,
            Call::Notify(_) | Call::Broadcast(_) if idle => 6,
            Call::Notify(condition) | Call::Broadcast(condition) if no_condition(condition) => 7,
            Call::Naked(condition) if no_condition(condition) => 7,
            Call::Requeue {
                source,
                destination,
                process,
            } => self.requeue_refusal(source, destination, process),
            Call::SetPriority(_) if idle => 6,
            Call::SetPriority(priority) if priority > 7 => 4,
            Call::Abort(process) if !(1..=self.processes).contains(&process) => 7,
            Call::SetAbortable { condition, value } if no_condition(condition) || value > 1 => 7,
            Call::Reenter { .. } if idle => 6,
            Call::Reenter { lock, condition } if no_lock(lock) || no_condition(condition) => 7,
            Call::Reenter { lock, .. } if holds(lock) => 8,
            _ => 0,
        }
    }

    fn requeue_refusal(&self, source: u16, destination: u16, process: u16) -> u16 {
        if source > self.parks
            || destination > self.parks
            || process == 0
            || process > self.processes
        {
            7
        } else if self.lies(process) != ready_or_park(source) {
            10
        } else {
            0
        }
    }

    /// What an accepted call does before dispatch: its mark and how many it moved.
    fn effect(&mut self, call: &Call) -> (u16, u16) {
        let caller = self.running;
        match *call {
            Call::Start { .. } => panic!("a history has one Start, at its beginning"),
            Call::Enter(lock) => self.enter(lock),
            Call::Exit(lock) => (0, self.leave(lock)),
            Call::Wait {
                lock,
                condition,
                ticks,
            } => {
                let moved = self.leave(lock);
                if self.abort[caller as usize] && self.abortable[condition as usize] {
                    return (0, moved);
                }
                if std::mem::take(&mut self.wakeup[condition as usize]) {
                    return (0, moved);
                }
                self.armed[caller as usize] = ticks > 0;
                self.timer[caller as usize] = self.due(ticks);
                self.note(caller, Place::Condition(condition));
                (1, moved)
            }
            Call::Notify(condition) => (0, self.wake_first(condition)),
            Call::Broadcast(condition) => {
                let all = self.queue(Place::Condition(condition));
                (0, all.into_iter().map(|process| self.wake(process)).sum())
            }
            Call::Naked(condition) => {
                if self.queue(Place::Condition(condition)).is_empty() {
                    self.wakeup[condition as usize] = true;
                    return (1, 0);
                }
                (0, self.wake_first(condition))
            }
            Call::Requeue {
                destination,
                process,
                ..
            } => (0, self.note(process, ready_or_park(destination))),
            Call::SetPriority(priority) => {
                self.priority[caller as usize] = priority;
                (0, self.note(caller, Place::Ready))
            }
            Call::Tick => {
                self.clock = if self.clock == 65_535 {
                    0
                } else {
                    self.clock + 1
                };
                (0, self.wake_due())
            }
            Call::Abort(process) => {
                self.abort[process as usize] = true;
                match self.lies(process) {
                    Place::Condition(condition) if self.abortable[condition as usize] => {
                        (0, self.wake(process))
                    }
                    _ => (0, 0),
                }
            }
            Call::SetAbortable { condition, value } => {
                self.abortable[condition as usize] = value == 1;
                (0, 0)
            }
            Call::Reenter { lock, condition } => {
                let wanted = self.abortable[condition as usize] && !self.locked(lock);
                if wanted && std::mem::take(&mut self.abort[caller as usize]) {
                    return (2, 0);
                }
                self.enter(lock)
            }
        }
    }

    /// Enter, and every Reenter that is not called off: mark and how many it moved.
    fn enter(&mut self, lock: u16) -> (u16, u16) {
        let caller = self.running;
        if self.locked(lock) {
            self.failed[caller as usize] = true;
            (0, self.note(caller, Place::Lock(lock)))
        } else {
            self.holder[lock as usize] = caller;
            (1, 0)
        }
    }

    fn leave(&mut self, lock: u16) -> u16 {
        self.holder[lock as usize] = 0;
        match self.queue(Place::Lock(lock)).first() {
            Some(&first) => self.note(first, Place::Ready),
            None => 0,
        }
    }

    fn wake_first(&mut self, condition: u16) -> u16 {
        match self.queue(Place::Condition(condition)).first() {
            Some(&first) => self.wake(first),
            None => 0,
        }
    }

    fn wake_due(&mut self) -> u16 {
        let mut moved = 0;
        for process in 1..=self.processes {
            let at = process as usize;
            if self.armed[at] && self.timer[at] == self.clock {
                moved += self.wake(process);
            }
        }
        moved
    }

    fn due(&self, ticks: u16) -> u16 {
        let sum = (self.clock as u32 + ticks as u32) & 0xFFFF;
        if ticks == 0 {
            0
        } else {
            sum as u16
        }
    }
}

fn ready_or_park(number: u16) -> Place {
    if number == 0 {
        Place::Ready
    } else {
        Place::Park(number)
    }
}
