//! The kernel on an area of words, written from the definition alone. The area is decoded
//! into plain lists, the rule is done on them, and the lists are encoded back.

use crate::call::{Answer, Call};

/// The four counts.
#[derive(Clone, Copy, PartialEq, Eq, Debug)]
pub struct Shape {
    pub processes: u16,
    pub locks: u16,
    pub conditions: u16,
    pub parks: u16,
}

#[derive(Clone, Copy, PartialEq, Eq, Debug)]
pub enum Queue {
    Ready,
    Park(u16),
    Lock(u16),
    Condition(u16),
}

#[derive(Clone, PartialEq, Eq, Debug, Default)]
pub struct Lock {
    pub queue: Vec<u16>,
    pub locked: bool,
    pub holder: u16,
}

#[derive(Clone, PartialEq, Eq, Debug, Default)]
pub struct Condition {
    pub queue: Vec<u16>,
    pub wakeup: bool,
    pub abortable: bool,
}

#[derive(Clone, PartialEq, Eq, Debug, Default)]
pub struct Record {
    pub priority: u16,
    pub failed: bool,
    pub waiting: bool,
    pub armed: bool,
    pub timer: u16,
    pub abort: bool,
}

impl Record {
    /// Sets armed, and the timer beside it.
    pub fn arm(&mut self, timer: u16) {
        self.armed = true;
        self.timer = timer;
    }
}

/// What the words of an area say, with every ring as a list from its first to its tail.
#[derive(Clone, PartialEq, Eq, Debug)]
pub struct State {
    pub shape: Shape,
    pub clock: u16,
    pub running: u16,
    pub ready: Vec<u16>,
    pub parks: Vec<Vec<u16>>,
    pub locks: Vec<Lock>,
    pub conditions: Vec<Condition>,
    pub records: Vec<Record>,
}

const HEADER: usize = 6;
const READY_TAIL: usize = 5;
const RECORD: usize = 3;

impl Shape {
    pub fn in_range(&self) -> bool {
        (1..=1023).contains(&self.processes)
            && self.locks <= 255
            && self.conditions <= 255
            && self.parks <= 8
    }

    pub fn size(&self) -> usize {
        self.records_at() + RECORD * usize::from(self.processes)
    }

    fn records_at(&self) -> usize {
        HEADER
            + usize::from(self.parks)
            + 2 * usize::from(self.locks)
            + usize::from(self.conditions)
    }

    /// The place of a queue's tail word.
    pub fn tail_at(&self, queue: Queue) -> usize {
        let parks = HEADER;
        let locks = parks + usize::from(self.parks);
        let conditions = locks + 2 * usize::from(self.locks);
        match queue {
            Queue::Ready => READY_TAIL,
            Queue::Park(number) => parks + usize::from(number) - 1,
            Queue::Lock(number) => locks + 2 * (usize::from(number) - 1),
            Queue::Condition(number) => conditions + usize::from(number) - 1,
        }
    }

    /// The place of a process's link word; its flags and timer follow.
    pub fn link_at(&self, process: u16) -> usize {
        self.records_at() + RECORD * (usize::from(process) - 1)
    }

    /// All queues in the order of their words.
    pub fn queues(&self) -> Vec<Queue> {
        let mut all = vec![Queue::Ready];
        all.extend((1..=self.parks).map(Queue::Park));
        all.extend((1..=self.locks).map(Queue::Lock));
        all.extend((1..=self.conditions).map(Queue::Condition));
        all
    }
}

// Words. Bit 0 is the most significant.

const PROCESS: (u32, u32) = (3, 12);
const LAST: (u32, u32) = (15, 15);
const PRIORITY: (u32, u32) = (0, 2);
const FAILED: (u32, u32) = (13, 13);
const ARMED: (u32, u32) = (13, 13);
const WAITING: (u32, u32) = (14, 14);
const ABORT: (u32, u32) = (15, 15);
const ABORTABLE: (u32, u32) = (14, 14);
const WHOLE: (u32, u32) = (0, 15);

fn mask((from, to): (u32, u32)) -> u16 {
    (from..=to).map(|bit| 1 << (15 - bit)).sum()
}

fn bits(word: u16, (from, to): (u32, u32)) -> u16 {
    (word & mask((from, to))) >> (15 - to)
}

fn put(value: u16, (from, to): (u32, u32)) -> u16 {
    let word = value << (15 - to);
    assert_eq!(bits(word, (from, to)), value);
    word
}

/// Reads words in their order and refuses a word with an unnamed bit set.
struct Reader<'a> {
    words: std::slice::Iter<'a, u16>,
    processes: u16,
}

impl Reader<'_> {
    fn word(&mut self, named: &[(u32, u32)]) -> Option<u16> {
        let allowed = named.iter().fold(0, |all, &field| all | mask(field));
        let word = *self.words.next()?;
        (word & !allowed == 0).then_some(word)
    }

    fn process(&self, word: u16) -> Option<u16> {
        let process = bits(word, PROCESS);
        (process <= self.processes).then_some(process)
    }
}

fn read_shape(reader: &mut Reader) -> Option<Shape> {
    let first = reader.word(&[(6, 15)])?;
    let second = reader.word(&[(0, 7), (8, 15)])?;
    let third = reader.word(&[(0, 3)])?;
    let shape = Shape {
        processes: bits(first, (6, 15)),
        locks: bits(second, (0, 7)),
        conditions: bits(second, (8, 15)),
        parks: bits(third, (0, 3)),
    };
    shape.in_range().then_some(shape)
}

/// The processes of a ring from its first to its tail; none if the reading doesn't end there.
fn ring(tail: u16, next: &[u16]) -> Option<Vec<u16>> {
    let mut members = Vec::new();
    if tail == 0 {
        return Some(members);
    }
    let mut process = tail;
    loop {
        process = next[usize::from(process) - 1];
        if process == 0 || members.len() == next.len() {
            return None;
        }
        members.push(process);
        if process == tail {
            return Some(members);
        }
    }
}

/// Decodes an area in which every field is in range and every ring can be read.
fn decode(area: &[u16]) -> Option<State> {
    let mut reader = Reader {
        words: area.iter(),
        processes: 0,
    };
    let shape = read_shape(&mut reader)?;
    if area.len() < shape.size() {
        return None;
    }
    reader.processes = shape.processes;
    let clock = reader.word(&[WHOLE])?;
    let word = reader.word(&[PROCESS])?;
    let running = reader.process(word)?;
    let mut tails = Vec::new();
    let mut locks = Vec::new();
    let mut conditions = Vec::new();
    for queue in shape.queues() {
        match queue {
            Queue::Ready | Queue::Park(_) => {
                let word = reader.word(&[PROCESS])?;
                tails.push(reader.process(word)?);
            }
            Queue::Lock(_) => {
                let word = reader.word(&[PROCESS, LAST])?;
                tails.push(reader.process(word)?);
                let holder = reader.word(&[PROCESS])?;
                locks.push(Lock {
                    queue: Vec::new(),
                    locked: bits(word, LAST) == 1,
                    holder: reader.process(holder)?,
                });
            }
            Queue::Condition(_) => {
                let word = reader.word(&[PROCESS, ABORTABLE, LAST])?;
                tails.push(reader.process(word)?);
                conditions.push(Condition {
                    queue: Vec::new(),
                    wakeup: bits(word, LAST) == 1,
                    abortable: bits(word, ABORTABLE) == 1,
                });
            }
        }
    }
    let mut records = Vec::new();
    let mut next = Vec::new();
    for _ in 0..shape.processes {
        let link = reader.word(&[PRIORITY, PROCESS, FAILED])?;
        let flags = reader.word(&[ARMED, WAITING, ABORT])?;
        let timer = reader.word(&[WHOLE])?;
        next.push(reader.process(link)?);
        records.push(Record {
            priority: bits(link, PRIORITY),
            failed: bits(link, FAILED) == 1,
            waiting: bits(flags, WAITING) == 1,
            armed: bits(flags, ARMED) == 1,
            timer,
            abort: bits(flags, ABORT) == 1,
        });
    }
    let mut state = State {
        shape,
        clock,
        running,
        ready: Vec::new(),
        parks: vec![Vec::new(); usize::from(shape.parks)],
        locks,
        conditions,
        records,
    };
    for (queue, tail) in shape.queues().into_iter().zip(tails) {
        *state.queue_mut(queue) = ring(tail, &next)?;
    }
    Some(state)
}

/// The state that a sound area holds; none if the area isn't sound.
pub fn read(area: &[u16]) -> Option<State> {
    decode(area).filter(State::valid)
}

pub fn sound(area: &[u16]) -> bool {
    read(area).is_some()
}

impl State {
    /// Start's state: all processes in ready as fresh arrivals, running not yet dispatched.
    pub fn fresh(shape: Shape, priorities: &[u8]) -> State {
        let mut state = State {
            shape,
            clock: 0,
            running: 0,
            ready: Vec::new(),
            parks: vec![Vec::new(); usize::from(shape.parks)],
            locks: vec![Lock::default(); usize::from(shape.locks)],
            conditions: vec![Condition::default(); usize::from(shape.conditions)],
            records: Vec::new(),
        };
        for (&priority, process) in priorities.iter().zip(1..) {
            state.records.push(Record {
                priority: u16::from(priority),
                ..Record::default()
            });
            state.join(process, Queue::Ready);
        }
        state
    }

    pub fn queue(&self, queue: Queue) -> &[u16] {
        match queue {
            Queue::Ready => &self.ready,
            Queue::Park(number) => &self.parks[usize::from(number) - 1],
            Queue::Lock(number) => &self.lock(number).queue,
            Queue::Condition(number) => &self.condition(number).queue,
        }
    }

    pub fn queue_mut(&mut self, queue: Queue) -> &mut Vec<u16> {
        match queue {
            Queue::Ready => &mut self.ready,
            Queue::Park(number) => &mut self.parks[usize::from(number) - 1],
            Queue::Lock(number) => &mut self.lock_mut(number).queue,
            Queue::Condition(number) => &mut self.condition_mut(number).queue,
        }
    }

    pub fn lock(&self, number: u16) -> &Lock {
        &self.locks[usize::from(number) - 1]
    }

    pub fn lock_mut(&mut self, number: u16) -> &mut Lock {
        &mut self.locks[usize::from(number) - 1]
    }

    pub fn condition(&self, number: u16) -> &Condition {
        &self.conditions[usize::from(number) - 1]
    }

    pub fn condition_mut(&mut self, number: u16) -> &mut Condition {
        &mut self.conditions[usize::from(number) - 1]
    }

    pub fn record(&self, process: u16) -> &Record {
        &self.records[usize::from(process) - 1]
    }

    pub fn record_mut(&mut self, process: u16) -> &mut Record {
        &mut self.records[usize::from(process) - 1]
    }

    /// The queue in which a process of a valid state stands.
    pub fn lies(&self, process: u16) -> Queue {
        let mut queues = self.shape.queues().into_iter();
        queues
            .find(|&queue| self.queue(queue).contains(&process))
            .expect("each process stands in a queue")
    }

    /// Answers how many stand before the newcomer.
    fn join(&mut self, process: u16, queue: Queue) -> u16 {
        let priority = self.record(process).priority;
        let members = self.queue(queue);
        let place = members
            .iter()
            .position(|&other| self.record(other).priority < priority)
            .unwrap_or(members.len());
        self.queue_mut(queue).insert(place, process);
        place as u16
    }

    // Soundness, clause by clause, over fields that are in range.

    pub fn valid(&self) -> bool {
        self.each_stands_once()
            && self.no_ring_rises()
            && self.running_is_first_and_not_failed()
            && self.waiting_exactly_in_conditions()
            && self.armed_only_where_waiting()
            && self.timers_only_where_armed()
            && self.failed_as_the_rings_say()
            && self.locked_exactly_when_held()
            && self.no_holder_in_its_own_ring()
            && self.wakeup_only_over_an_empty_ring()
    }

    fn each_stands_once(&self) -> bool {
        let mut times = vec![0; self.records.len()];
        for queue in self.shape.queues() {
            for &process in self.queue(queue) {
                times[usize::from(process) - 1] += 1;
            }
        }
        times.iter().all(|&count| count == 1)
    }

    fn no_ring_rises(&self) -> bool {
        self.shape.queues().into_iter().all(|queue| {
            self.queue(queue)
                .windows(2)
                .all(|pair| self.record(pair[0]).priority >= self.record(pair[1]).priority)
        })
    }

    fn running_is_first_and_not_failed(&self) -> bool {
        match self.ready.first() {
            None => self.running == 0,
            Some(&first) => self.running == first && !self.record(first).failed,
        }
    }

    fn waiting_exactly_in_conditions(&self) -> bool {
        self.shape.queues().into_iter().all(|queue| {
            let inside = matches!(queue, Queue::Condition(_));
            self.queue(queue)
                .iter()
                .all(|&process| self.record(process).waiting == inside)
        })
    }

    fn armed_only_where_waiting(&self) -> bool {
        self.records
            .iter()
            .all(|record| record.waiting || !record.armed)
    }

    fn timers_only_where_armed(&self) -> bool {
        self.records
            .iter()
            .all(|record| record.armed || record.timer == 0)
    }

    fn failed_as_the_rings_say(&self) -> bool {
        let failed = |&process: &u16| self.record(process).failed;
        let mut in_locks = self.locks.iter().flat_map(|lock| &lock.queue);
        let mut in_conditions = self.conditions.iter().flat_map(|one| &one.queue);
        in_locks.all(failed) && !in_conditions.any(failed)
    }

    fn locked_exactly_when_held(&self) -> bool {
        self.locks
            .iter()
            .all(|lock| lock.locked == (lock.holder != 0))
    }

    fn no_holder_in_its_own_ring(&self) -> bool {
        self.locks
            .iter()
            .all(|lock| !lock.queue.contains(&lock.holder))
    }

    fn wakeup_only_over_an_empty_ring(&self) -> bool {
        self.conditions
            .iter()
            .all(|one| !one.wakeup || one.queue.is_empty())
    }

    /// The words of the state, valid or not. A process in no queue gets next 0.
    pub fn words(&self) -> Vec<u16> {
        let shape = &self.shape;
        let tail = |queue: &[u16]| put(queue.last().copied().unwrap_or(0), PROCESS);
        let mut words = vec![
            put(shape.processes, (6, 15)),
            put(shape.locks, (0, 7)) | put(shape.conditions, (8, 15)),
            put(shape.parks, (0, 3)),
            self.clock,
            put(self.running, PROCESS),
            tail(&self.ready),
        ];
        words.extend(self.parks.iter().map(|queue| tail(queue)));
        for lock in &self.locks {
            words.push(tail(&lock.queue) | put(u16::from(lock.locked), LAST));
            words.push(put(lock.holder, PROCESS));
        }
        for one in &self.conditions {
            words.push(
                tail(&one.queue)
                    | put(u16::from(one.abortable), ABORTABLE)
                    | put(u16::from(one.wakeup), LAST),
            );
        }
        for (record, next) in self.records.iter().zip(self.next()) {
            words.push(
                put(record.priority, PRIORITY)
                    | put(next, PROCESS)
                    | put(u16::from(record.failed), FAILED),
            );
            words.push(
                put(u16::from(record.armed), ARMED)
                    | put(u16::from(record.waiting), WAITING)
                    | put(u16::from(record.abort), ABORT),
            );
            words.push(record.timer);
        }
        words
    }

    fn next(&self) -> Vec<u16> {
        let mut next = vec![0; self.records.len()];
        for queue in self.shape.queues() {
            let members = self.queue(queue);
            for (place, &process) in members.iter().enumerate() {
                next[usize::from(process) - 1] = members[(place + 1) % members.len()];
            }
        }
        next
    }

    fn write(&self, area: &mut [u16]) {
        let words = self.words();
        area[..words.len()].copy_from_slice(&words);
    }
}

// Calls.

/// A call at work: the state, and what the answer will say.
struct Step {
    state: State,
    mark: u16,
    moved: u16,
    ahead: u16,
}

type Done = Result<(), u16>;

/// Does a call on an area and answers it.
pub fn perform(area: &mut [u16], call: &Call) -> Answer {
    if let Call::Start {
        processes,
        locks,
        conditions,
        parks,
        priorities,
    } = call
    {
        let shape = Shape {
            processes: *processes,
            locks: *locks,
            conditions: *conditions,
            parks: *parks,
        };
        return start(area, shape, priorities);
    }
    let Some(state) = read(area) else {
        return Answer::refusal(1);
    };
    let mut step = Step::new(state);
    match step.rule(call) {
        Err(code) => Answer::refusal(code),
        Ok(()) => step.finish(area),
    }
}

fn start(area: &mut [u16], shape: Shape, priorities: &[u8]) -> Answer {
    if !shape.in_range() {
        return Answer::refusal(2);
    }
    if priorities.len() != usize::from(shape.processes) {
        return Answer::refusal(3);
    }
    if priorities.iter().any(|&priority| priority > 7) {
        return Answer::refusal(4);
    }
    if area.len() < shape.size() {
        return Answer::refusal(5);
    }
    Step::new(State::fresh(shape, priorities)).finish(area)
}

fn known(number: u16, count: u16) -> Done {
    if number == 0 || number > count {
        return Err(7);
    }
    Ok(())
}

impl Step {
    fn new(state: State) -> Self {
        Step {
            state,
            mark: 0,
            moved: 0,
            ahead: 0,
        }
    }

    fn rule(&mut self, call: &Call) -> Done {
        match *call {
            Call::Start { .. } => unreachable!("Start reads no old content"),
            Call::Enter(lock) => self.enter(lock),
            Call::Exit(lock) => self.exit(lock),
            Call::Wait {
                lock,
                condition,
                ticks,
            } => self.wait(lock, condition, ticks),
            Call::Notify(condition) => self.notify(condition),
            Call::Broadcast(condition) => self.broadcast(condition),
            Call::Naked(condition) => self.naked(condition),
            Call::Requeue {
                source,
                destination,
                process,
            } => self.requeue(source, destination, process),
            Call::SetPriority(priority) => self.set_priority(priority),
            Call::Tick => self.tick(),
            Call::Abort(process) => self.abort(process),
            Call::SetAbortable { condition, value } => self.set_abortable(condition, value),
            Call::Reenter { lock, condition } => self.reenter(lock, condition),
        }
    }

    /// Dispatch, then the words and the answer.
    fn finish(mut self, area: &mut [u16]) -> Answer {
        let first = self.state.ready.first().copied().unwrap_or(0);
        self.state.running = first;
        let mut retry = 0;
        if first != 0 && self.state.record(first).failed {
            self.state.record_mut(first).failed = false;
            retry = 1;
        }
        self.state.write(area);
        Answer {
            code: 0,
            running: first,
            retry,
            mark: self.mark,
            moved: self.moved,
            ahead: self.ahead,
        }
    }

    /// Answers how many stand before the process where it now is.
    fn move_to(&mut self, process: u16, queue: Queue) -> u16 {
        let from = self.state.lies(process);
        self.state
            .queue_mut(from)
            .retain(|&member| member != process);
        if queue == Queue::Ready && from != Queue::Ready {
            self.moved += 1;
        }
        self.state.join(process, queue)
    }

    fn wake(&mut self, process: u16) {
        let record = self.state.record_mut(process);
        record.waiting = false;
        record.armed = false;
        record.timer = 0;
        self.move_to(process, Queue::Ready);
    }

    fn somebody_runs(&self) -> Done {
        if self.state.running == 0 {
            return Err(6);
        }
        Ok(())
    }

    fn running_holds(&self, lock: u16) -> bool {
        self.state.lock(lock).holder == self.state.running
    }

    fn enter(&mut self, lock: u16) -> Done {
        self.somebody_runs()?;
        known(lock, self.state.shape.locks)?;
        if self.running_holds(lock) {
            return Err(8);
        }
        self.take_or_queue(lock);
        Ok(())
    }

    fn take_or_queue(&mut self, lock: u16) {
        let running = self.state.running;
        if self.state.lock(lock).locked {
            self.state.record_mut(running).failed = true;
            self.ahead = self.move_to(running, Queue::Lock(lock));
        } else {
            self.state.lock_mut(lock).locked = true;
            self.state.lock_mut(lock).holder = running;
            self.mark = 1;
        }
    }

    /// Whether the running process has abort set, and the condition is abortable.
    fn called_off(&self, condition: u16) -> bool {
        self.state.record(self.state.running).abort && self.state.condition(condition).abortable
    }

    /// The entry after a wait: only on a free lock may it be called off.
    fn reenter(&mut self, lock: u16, condition: u16) -> Done {
        self.somebody_runs()?;
        known(lock, self.state.shape.locks)?;
        known(condition, self.state.shape.conditions)?;
        if self.running_holds(lock) {
            return Err(8);
        }
        if !self.state.lock(lock).locked && self.called_off(condition) {
            let running = self.state.running;
            self.state.record_mut(running).abort = false;
            self.mark = 2;
        } else {
            self.take_or_queue(lock);
        }
        Ok(())
    }

    fn exit(&mut self, lock: u16) -> Done {
        self.somebody_runs()?;
        known(lock, self.state.shape.locks)?;
        if !self.running_holds(lock) {
            return Err(9);
        }
        self.unlock(lock);
        Ok(())
    }

    fn unlock(&mut self, lock: u16) {
        self.state.lock_mut(lock).locked = false;
        self.state.lock_mut(lock).holder = 0;
        if let Some(&first) = self.state.lock(lock).queue.first() {
            self.move_to(first, Queue::Ready);
        }
    }

    fn wait(&mut self, lock: u16, condition: u16, ticks: u16) -> Done {
        self.somebody_runs()?;
        known(lock, self.state.shape.locks)?;
        known(condition, self.state.shape.conditions)?;
        if !self.running_holds(lock) {
            return Err(9);
        }
        self.unlock(lock);
        if self.called_off(condition) {
            return Ok(());
        }
        if self.state.condition(condition).wakeup {
            self.state.condition_mut(condition).wakeup = false;
            return Ok(());
        }
        let caller = self.state.running;
        let timer = timer(self.state.clock, ticks);
        let record = self.state.record_mut(caller);
        record.waiting = true;
        record.armed = ticks != 0;
        record.timer = timer;
        self.ahead = self.move_to(caller, Queue::Condition(condition));
        self.mark = 1;
        Ok(())
    }

    fn notify(&mut self, condition: u16) -> Done {
        self.somebody_runs()?;
        known(condition, self.state.shape.conditions)?;
        if let Some(&first) = self.state.condition(condition).queue.first() {
            self.wake(first);
        }
        Ok(())
    }

    fn broadcast(&mut self, condition: u16) -> Done {
        self.somebody_runs()?;
        known(condition, self.state.shape.conditions)?;
        for process in self.state.condition(condition).queue.clone() {
            self.wake(process);
        }
        Ok(())
    }

    fn naked(&mut self, condition: u16) -> Done {
        known(condition, self.state.shape.conditions)?;
        if let Some(&first) = self.state.condition(condition).queue.first() {
            self.wake(first);
        } else {
            self.state.condition_mut(condition).wakeup = true;
            self.mark = 1;
        }
        Ok(())
    }

    fn abort(&mut self, process: u16) -> Done {
        known(process, self.state.shape.processes)?;
        self.state.record_mut(process).abort = true;
        if let Queue::Condition(condition) = self.state.lies(process) {
            if self.state.condition(condition).abortable {
                self.wake(process);
            }
        }
        Ok(())
    }

    fn set_abortable(&mut self, condition: u16, value: u16) -> Done {
        known(condition, self.state.shape.conditions)?;
        if value > 1 {
            return Err(7);
        }
        self.state.condition_mut(condition).abortable = value == 1;
        Ok(())
    }

    fn requeue(&mut self, source: u16, destination: u16, process: u16) -> Done {
        let source = self.ready_or_park(source)?;
        let destination = self.ready_or_park(destination)?;
        known(process, self.state.shape.processes)?;
        if !self.state.queue(source).contains(&process) {
            return Err(10);
        }
        self.move_to(process, destination);
        Ok(())
    }

    fn ready_or_park(&self, number: u16) -> Result<Queue, u16> {
        if number == 0 {
            return Ok(Queue::Ready);
        }
        known(number, self.state.shape.parks)?;
        Ok(Queue::Park(number))
    }

    fn set_priority(&mut self, priority: u16) -> Done {
        self.somebody_runs()?;
        if priority > 7 {
            return Err(4);
        }
        let running = self.state.running;
        self.state.record_mut(running).priority = priority;
        self.move_to(running, Queue::Ready);
        Ok(())
    }

    fn tick(&mut self) -> Done {
        self.state.clock = self.state.clock.wrapping_add(1);
        for process in 1..=self.state.shape.processes {
            let record = self.state.record(process);
            if record.armed && record.timer == self.state.clock {
                self.wake(process);
            }
        }
        Ok(())
    }
}

fn timer(clock: u16, ticks: u16) -> u16 {
    if ticks == 0 {
        return 0;
    }
    ((u32::from(clock) + u32::from(ticks)) % 65_536) as u16
}

/// The queue that a kind and a number name.
fn named_queue(shape: &Shape, kind: u16, number: u16) -> Option<Queue> {
    let queue = match kind {
        0 => return (number == 0).then_some(Queue::Ready),
        1 => known(number, shape.parks).map(|()| Queue::Park(number)),
        2 => known(number, shape.locks).map(|()| Queue::Lock(number)),
        3 => known(number, shape.conditions).map(|()| Queue::Condition(number)),
        _ => return None,
    };
    queue.ok()
}

/// List: writes a queue into the buffer, first to last; answers code and count.
pub fn list(area: &[u16], kind: u16, number: u16, buffer: &mut [u16]) -> (u16, u16) {
    let Some(state) = read(area) else {
        return (1, 0);
    };
    let Some(queue) = named_queue(&state.shape, kind, number) else {
        return (7, 0);
    };
    let members = state.queue(queue);
    if buffer.len() < members.len() {
        return (5, 0);
    }
    buffer[..members.len()].copy_from_slice(members);
    (0, members.len() as u16)
}

// Reads of the timers.

/// A process that waits armed, and its ticks left.
#[derive(Clone, Copy, PartialEq, Eq, Debug, Default)]
pub struct Timed {
    pub process: u16,
    pub left: u32,
}

fn left(clock: u16, timer: u16) -> u32 {
    let (clock, timer) = (u32::from(clock), u32::from(timer));
    if timer > clock {
        timer - clock
    } else {
        65_536 - (clock - timer)
    }
}

impl State {
    /// All who wait armed, by their ticks left and then by number.
    pub fn timed(&self) -> Vec<Timed> {
        let mut all = Vec::new();
        for process in 1..=self.shape.processes {
            let record = self.record(process);
            if record.armed {
                let left = left(self.clock, record.timer);
                all.push(Timed { process, left });
            }
        }
        all.sort_by_key(|timed| (timed.left, timed.process));
        all
    }
}

/// Nearest: the first of all who are timed; zeros if there is none.
pub fn nearest(timed: &[Timed]) -> Timed {
    timed.first().copied().unwrap_or_default()
}

/// Due: those of all who are timed that have at most so many ticks left, two words each;
/// answers code and count.
pub fn due(timed: &[Timed], ticks: u16, buffer: &mut [u16]) -> (u32, u32) {
    let told: Vec<Timed> = timed
        .iter()
        .filter(|timed| timed.left <= u32::from(ticks))
        .copied()
        .collect();
    if buffer.len() < 2 * told.len() {
        return (5, 0);
    }
    for (place, timed) in told.iter().enumerate() {
        buffer[2 * place] = timed.process;
        buffer[2 * place + 1] = timed.left as u16;
    }
    (0, told.len() as u32)
}

// The yard sheet.

/// Puts a text into these columns of a line, the first column being 1, as far right as it goes.
fn fill(line: &mut [u8], (from, to): (usize, usize), text: &str) {
    assert!(
        text.len() <= to - from + 1,
        "{text} in columns {from} to {to}"
    );
    line[to - text.len()..to].copy_from_slice(text.as_bytes());
}

impl State {
    /// A line for each queue.
    pub fn sheet(&self) -> Vec<u8> {
        let queues = self.shape.queues();
        queues.iter().flat_map(|&queue| self.line(queue)).collect()
    }

    fn line(&self, queue: Queue) -> Vec<u8> {
        let (name, number, holder, wakeup) = match queue {
            Queue::Ready => ("RD", 0, 0, false),
            Queue::Park(number) => ("PK", number, 0, false),
            Queue::Lock(number) => ("LK", number, self.lock(number).holder, false),
            Queue::Condition(number) => ("CN", number, 0, self.condition(number).wakeup),
        };
        let members = self.queue(queue);
        let first = members.first().unwrap_or(&0);
        let last = members.last().unwrap_or(&0);
        let mut line = vec![b' '; 28];
        fill(&mut line, (1, 2), name);
        fill(&mut line, (4, 6), &number.to_string());
        fill(&mut line, (8, 11), &members.len().to_string());
        fill(&mut line, (13, 16), &first.to_string());
        fill(&mut line, (18, 21), &last.to_string());
        fill(&mut line, (23, 26), &holder.to_string());
        fill(&mut line, (28, 28), if wakeup { "1" } else { "0" });
        line.push(b'\n');
        line
    }
}

/// Sheet: puts the lines onto a page; answers code and bytes.
pub fn sheet(lines: &[u8], page: &mut [u8]) -> (u32, u32) {
    if page.len() < lines.len() {
        return (5, 0);
    }
    page[..lines.len()].copy_from_slice(lines);
    (0, lines.len() as u32)
}
