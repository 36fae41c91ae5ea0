//! How many buckets a volume has in each state.

use crate::buckets::{Buckets, State, Status};
use crate::call_list_ref::CallListRef;
use crate::limits::KEPT_BACK;

/// How many buckets of a volume are free, in use, waiting and reserved.
#[derive(Debug, Clone, Copy, PartialEq, Eq, Default)]
pub struct Usage {
    /// In a freespace run and not reserved.
    pub free: u32,
    /// Of the free ones, those that no save takes: 32 and the journal reserve, or all of them where
    /// fewer are free.
    pub kept_back: u32,
    /// Those in which a live piece lies.
    pub in_use: u32,
    /// Emptied, and waiting for their discard.
    pub waiting: u32,
    /// Of the waiting ones, those that no discard takes: they were emptied sixteen times.
    pub retired: u32,
    /// Reserved, and neither in use nor waiting: what was set aside when the volume was made.
    pub reserved: u32,
}

impl Usage {
    /// What a list's bytes say.
    pub(crate) fn of(list: &CallListRef) -> Usage {
        let buckets = Buckets::of(list);
        let free = buckets.count(Status::is_free);
        let kept = KEPT_BACK.saturating_add(list.head().journal_reserve);
        Usage {
            free,
            kept_back: free.min(kept),
            in_use: buckets.count(Status::is_in_use),
            waiting: buckets.count(Status::is_waiting),
            retired: buckets.count(Status::is_retired),
            reserved: buckets.count(|status| status.state() == Some(State::Reserved)),
        }
    }

    /// The free buckets that saves may take.
    pub fn available(&self) -> u32 {
        self.free.saturating_sub(self.kept_back)
    }
}
