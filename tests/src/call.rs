//! The calls and answers, as names and numbers. Nothing here knows a rule.

#[derive(Clone, PartialEq, Eq, Debug)]
pub enum Call {
    Start {
        processes: u16,
        locks: u16,
        conditions: u16,
        parks: u16,
        priorities: Vec<u8>,
    },
    Enter(u16),
    Exit(u16),
    Wait {
        lock: u16,
        condition: u16,
        ticks: u16,
    },
    Notify(u16),
    Broadcast(u16),
    Naked(u16),
    Requeue {
        source: u16,
        destination: u16,
        process: u16,
    },
    SetPriority(u16),
    Tick,
    Abort(u16),
    SetAbortable {
        condition: u16,
        value: u16,
    },
    Reenter {
        lock: u16,
        condition: u16,
    },
}

impl Call {
    pub fn requeue(source: u16, destination: u16, process: u16) -> Self {
        Call::Requeue {
            source,
            destination,
            process,
        }
    }

    pub fn wait(lock: u16, condition: u16, ticks: u16) -> Self {
        Call::Wait {
            lock,
            condition,
            ticks,
        }
    }

    pub fn set_abortable(condition: u16, value: u16) -> Self {
        Call::SetAbortable { condition, value }
    }

    pub fn reenter(lock: u16, condition: u16) -> Self {
        Call::Reenter { lock, condition }
    }

    pub fn name(&self) -> &'static str {
        match self {
            Call::Start { .. } => "start",
            Call::Enter(_) => "enter",
            Call::Exit(_) => "exit",
            Call::Wait { .. } => "wait",
            Call::Notify(_) => "notify",
            Call::Broadcast(_) => "broadcast",
            Call::Naked(_) => "naked",
            Call::Requeue { .. } => "requeue",
            Call::SetPriority(_) => "setpriority",
            Call::Tick => "tick",
            Call::Abort(_) => "abort",
            Call::SetAbortable { .. } => "setabortable",
            Call::Reenter { .. } => "reenter",
        }
    }
}

#[derive(Clone, Copy, PartialEq, Eq, Debug, Default)]
pub struct Answer {
    pub code: u16,
    pub running: u16,
    pub retry: u16,
    pub mark: u16,
    pub moved: u16,
    pub ahead: u16,
}

impl Answer {
    /// The answer of these fields, in their order.
    pub fn of(fields: [u16; 6]) -> Self {
        let [code, running, retry, mark, moved, ahead] = fields;
        Answer {
            code,
            running,
            retry,
            mark,
            moved,
            ahead,
        }
    }

    pub fn refusal(code: u16) -> Self {
        Answer {
            code,
            ..Answer::default()
        }
    }

    /// Its fields, in their order.
    pub fn fields(&self) -> [u16; 6] {
        [
            self.code,
            self.running,
            self.retry,
            self.mark,
            self.moved,
            self.ahead,
        ]
    }

    /// The answer as one number, ten bits a field, code lowest.
    pub fn pack(&self) -> u64 {
        pack(&self.fields())
    }
}

/// Fields as one number, ten bits each, the first lowest.
pub fn pack(fields: &[u16]) -> u64 {
    fields.iter().rev().fold(0, |number, &field| {
        assert!(field < 1024);
        number * 1024 + u64::from(field)
    })
}

/// Fields as one number, twenty bits each, the first lowest.
pub fn pack_wide(fields: &[u32]) -> u64 {
    fields.iter().rev().fold(0, |number, &field| {
        assert!(field < 1_048_576);
        number * 1_048_576 + u64::from(field)
    })
}
