//! The suites by theme, and how they compare.

pub mod abort;
pub mod ahead;
pub mod calls;
pub mod known;
pub mod ledger;
pub mod list;
pub mod rehearse;
pub mod sheet;
pub mod show;
pub mod sleeps;
pub mod sound;
pub mod start;
pub mod table;
pub mod timers;
pub mod turns;

use std::fmt::Debug;

/// Counts comparisons; the first difference ends the suite.
#[derive(Default)]
pub struct Tally {
    pub compared: u64,
    /// What a suite has to say beside the count.
    pub remark: String,
}

pub type Outcome = Result<(), String>;

impl Tally {
    /// Compares what was found with what was expected; `place` says where, if they differ.
    pub fn same<T: PartialEq + Debug + ?Sized>(
        &mut self,
        found: &T,
        expected: &T,
        place: impl Fn() -> String,
    ) -> Outcome {
        self.compared += 1;
        if found == expected {
            return Ok(());
        }
        Err(format!(
            "{}\n  found    {}\n  expected {}",
            shortened(place()),
            shortened(format!("{found:x?}")),
            shortened(format!("{expected:x?}"))
        ))
    }

    pub fn holds(&mut self, condition: bool, place: impl Fn() -> String) -> Outcome {
        self.same(&condition, &true, place)
    }
}

/// The text, cut where an area is too large to be read.
fn shortened(mut text: String) -> String {
    const LONGEST: usize = 2000;
    if text.len() > LONGEST {
        text.truncate(LONGEST);
        text.push_str(" ...");
    }
    text
}
