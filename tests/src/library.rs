//! The library under test through its C exports.

use crate::call::Call;

extern "C" {
    fn kernel_start(
        area: *mut u16,
        len: usize,
        processes: u16,
        locks: u16,
        conditions: u16,
        parks: u16,
        priorities: *const u8,
        count: usize,
    ) -> u64;
    fn kernel_sound(area: *const u16, len: usize) -> u64;
    fn kernel_enter(area: *mut u16, len: usize, lock: u16) -> u64;
    fn kernel_exit(area: *mut u16, len: usize, lock: u16) -> u64;
    fn kernel_wait(area: *mut u16, len: usize, lock: u16, condition: u16, ticks: u16) -> u64;
    fn kernel_notify(area: *mut u16, len: usize, condition: u16) -> u64;
    fn kernel_broadcast(area: *mut u16, len: usize, condition: u16) -> u64;
    fn kernel_naked(area: *mut u16, len: usize, condition: u16) -> u64;
    fn kernel_requeue(
        area: *mut u16,
        len: usize,
        source: u16,
        destination: u16,
        process: u16,
    ) -> u64;
    fn kernel_set_priority(area: *mut u16, len: usize, priority: u16) -> u64;
    fn kernel_tick(area: *mut u16, len: usize) -> u64;
    fn kernel_abort(area: *mut u16, len: usize, process: u16) -> u64;
    fn kernel_set_abortable(area: *mut u16, len: usize, condition: u16, value: u16) -> u64;
    fn kernel_reenter(area: *mut u16, len: usize, lock: u16, condition: u16) -> u64;
    fn kernel_list(
        area: *const u16,
        len: usize,
        kind: u16,
        number: u16,
        buffer: *mut u16,
        buffer_len: usize,
    ) -> u64;
    fn kernel_due(
        area: *const u16,
        len: usize,
        ticks: u16,
        buffer: *mut u16,
        buffer_len: usize,
    ) -> u64;
    fn kernel_nearest(area: *const u16, len: usize) -> u64;
    fn kernel_sheet(area: *const u16, len: usize, page: *mut u8, page_len: usize) -> u64;
}

pub fn sound(area: &[u16]) -> u64 {
    unsafe { kernel_sound(area.as_ptr(), area.len()) }
}

pub fn list(area: &[u16], kind: u16, number: u16, buffer: &mut [u16]) -> u64 {
    unsafe {
        kernel_list(
            area.as_ptr(),
            area.len(),
            kind,
            number,
            buffer.as_mut_ptr(),
            buffer.len(),
        )
    }
}

pub fn due(area: &[u16], ticks: u16, buffer: &mut [u16]) -> u64 {
    unsafe {
        kernel_due(
            area.as_ptr(),
            area.len(),
            ticks,
            buffer.as_mut_ptr(),
            buffer.len(),
        )
    }
}

pub fn nearest(area: &[u16]) -> u64 {
    unsafe { kernel_nearest(area.as_ptr(), area.len()) }
}

pub fn sheet(area: &[u16], page: &mut [u8]) -> u64 {
    unsafe { kernel_sheet(area.as_ptr(), area.len(), page.as_mut_ptr(), page.len()) }
}

/// Does a call, and answers its packed answer.
pub fn perform(area: &mut [u16], call: &Call) -> u64 {
    let (words, len) = (area.as_mut_ptr(), area.len());
    unsafe {
        match *call {
            Call::Start {
                processes,
                locks,
                conditions,
                parks,
                ref priorities,
            } => kernel_start(
                words,
                len,
                processes,
                locks,
                conditions,
                parks,
                priorities.as_ptr(),
                priorities.len(),
            ),
            Call::Enter(lock) => kernel_enter(words, len, lock),
            Call::Exit(lock) => kernel_exit(words, len, lock),
            Call::Wait {
                lock,
                condition,
                ticks,
            } => kernel_wait(words, len, lock, condition, ticks),
            Call::Notify(condition) => kernel_notify(words, len, condition),
            Call::Broadcast(condition) => kernel_broadcast(words, len, condition),
            Call::Naked(condition) => kernel_naked(words, len, condition),
            Call::Requeue {
                source,
                destination,
                process,
            } => kernel_requeue(words, len, source, destination, process),
            Call::SetPriority(priority) => kernel_set_priority(words, len, priority),
            Call::Tick => kernel_tick(words, len),
            Call::Abort(process) => kernel_abort(words, len, process),
            Call::SetAbortable { condition, value } => {
                kernel_set_abortable(words, len, condition, value)
            }
            Call::Reenter { lock, condition } => kernel_reenter(words, len, lock, condition),
        }
    }
}
