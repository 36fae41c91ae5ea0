//! What a volume says of each bucket.

use crate::alloc_value::data_type;
use crate::call_list_ref::CallListRef;
use crate::key::{key_type, Tree};
use crate::key_ref::KeyRef;
use crate::kinds::Bucket;
use crate::limits::{MAX_BUCKETS, RETIRED_GENERATION};

/// What a bucket's alloc key says of it.
#[derive(Debug, Clone, Copy, PartialEq, Eq)]
pub struct Alloc {
    /// Its generation.
    pub generation: u8,
    /// Its data type: 0 free, 4 user data, 9 waiting for its discard.
    pub data_type: u8,
    /// How many of its sectors hold data.
    pub dirty_sectors: u32,
}

impl Alloc {
    /// What an alloc key says; none where its value is too short for that.
    fn of(key: KeyRef) -> Option<Alloc> {
        Some(Alloc {
            generation: key.generation()?,
            data_type: key.data_type()?,
            dirty_sectors: key.dirty_sectors()?,
        })
    }
}

/// The state of a bucket.
#[derive(Debug, Clone, Copy, PartialEq, Eq, PartialOrd, Ord, Hash)]
pub enum State {
    /// In a freespace run and not reserved: a save may take it.
    Free,
    /// A live piece lies in it.
    InUse,
    /// Emptied, and waiting for its discard.
    Waiting,
    /// Reserved, and none of these.
    Reserved,
    /// None of these: the volume does not offer it.
    Outside,
}

/// What the keys and the reserved buckets of a volume say of one bucket.
#[derive(Debug, Clone, Copy, PartialEq, Eq, Default)]
pub struct Status {
    /// A freespace run has it.
    pub in_run: bool,
    /// It is reserved.
    pub reserved: bool,
    /// What its alloc key says, where it has one.
    pub alloc: Option<Alloc>,
    /// How many need-discard keys name it.
    pub need_discard: u32,
    /// How many live pieces lie in it.
    pub pieces: u32,
    /// The sectors of these pieces, added up.
    pub live_sectors: u64,
}

impl Status {
    /// In a run, unreserved.
    pub fn is_free(&self) -> bool {
        self.in_run && !self.reserved
    }

    /// A live piece's bucket.
    pub fn is_in_use(&self) -> bool {
        self.pieces > 0
    }

    /// Its data type is 9, and a need-discard key names it.
    pub fn is_waiting(&self) -> bool {
        let emptied = |alloc: Alloc| alloc.data_type == data_type::NEED_DISCARD;
        self.alloc.is_some_and(emptied) && self.need_discard > 0
    }

    /// Waiting, with a generation that no discard takes.
    pub fn is_retired(&self) -> bool {
        let worn = |alloc: Alloc| alloc.generation >= RETIRED_GENERATION;
        self.is_waiting() && self.alloc.is_some_and(worn)
    }

    /// Its state; none where it is in two of free, in use and waiting, which no history leads to.
    pub fn state(&self) -> Option<State> {
        match (self.is_free(), self.is_in_use(), self.is_waiting()) {
            (true, false, false) => Some(State::Free),
            (false, true, false) => Some(State::InUse),
            (false, false, true) => Some(State::Waiting),
            (false, false, false) if self.reserved => Some(State::Reserved),
            (false, false, false) => Some(State::Outside),
            _ => None,
        }
    }
}

/// The buckets of a volume, from bucket 0 up to the highest that it says something of.
#[derive(Debug, Clone, PartialEq, Eq)]
pub struct Buckets(Vec<Status>);

impl Buckets {
    /// What a list says. Bucket numbers that pass the limits are left out.
    pub(crate) fn of(list: &CallListRef) -> Buckets {
        let mut buckets = Buckets(Vec::new());
        for key in list.keys(Tree::Freespace) {
            let run = key.run().unwrap_or(Bucket(0)..Bucket(0));
            for bucket in run.start.0..run.end.0.min(MAX_BUCKETS) {
                buckets.note(Some(Bucket(bucket)), |status| status.in_run = true);
            }
        }
        for bucket in list.reserved() {
            buckets.note(Some(bucket), |status| status.reserved = true);
        }
        buckets.note_keys(list);
        buckets.note_pieces(list);
        buckets
    }

    /// What the alloc and the need-discard keys say.
    fn note_keys(&mut self, list: &CallListRef) {
        for key in list.keys(Tree::Alloc) {
            if key.position.inode == 0 {
                self.note(key.bucket(), |status| status.alloc = Alloc::of(key));
            }
        }
        for key in list.keys(Tree::NeedDiscard) {
            if key.key_type == key_type::SET {
                self.note(key.bucket(), |status| status.need_discard += 1);
            }
        }
    }

    /// Which pieces lie where.
    fn note_pieces(&mut self, list: &CallListRef) {
        let bucket_sectors = list.head().bucket_sectors;
        for piece in list.live() {
            self.note(piece.bucket(bucket_sectors), |status| {
                status.pieces += 1;
                status.live_sectors += u64::from(piece.sectors);
            });
        }
    }

    /// Note something of a bucket.
    fn note(&mut self, bucket: Option<Bucket>, note: impl FnOnce(&mut Status)) {
        let Some(bucket) = bucket.filter(|bucket| bucket.0 < MAX_BUCKETS) else {
            return;
        };
        let at = bucket.0 as usize;
        if self.0.len() <= at {
            self.0.resize(at + 1, Status::default());
        }
        note(&mut self.0[at]);
    }

    /// How many buckets there are.
    pub fn len(&self) -> usize {
        self.0.len()
    }

    /// The volume says nothing of any bucket.
    pub fn is_empty(&self) -> bool {
        self.0.is_empty()
    }

    /// What is said of a bucket.
    pub fn get(&self, bucket: Bucket) -> Status {
        self.0.get(bucket.0 as usize).copied().unwrap_or_default()
    }

    /// The buckets in order, and what is said of each.
    pub fn iter(&self) -> impl Iterator<Item = (Bucket, &Status)> {
        (0..).map(Bucket).zip(&self.0)
    }

    /// How many buckets have a property.
    pub(crate) fn count(&self, has: impl Fn(&Status) -> bool) -> u32 {
        self.iter().map(|(_, status)| u32::from(has(status))).sum()
    }
}

#[cfg(test)]
mod tests {
    use super::{Alloc, State, Status};

    /// The status of a bucket whose alloc key has a data type and a generation.
    fn status(data_type: u8, generation: u8) -> Status {
        Status {
            alloc: Some(Alloc {
                generation,
                data_type,
                dirty_sectors: 0,
            }),
            ..Status::default()
        }
    }

    /// Each state by its definition.
    #[test]
    fn states() {
        let mut bucket = Status::default();
        assert_eq!(bucket.state(), Some(State::Outside));
        bucket.in_run = true;
        assert_eq!(bucket.state(), Some(State::Free));
        bucket.pieces = 1;
        assert_eq!(bucket.state(), None);
        bucket.reserved = true;
        assert_eq!(bucket.state(), Some(State::InUse));
        bucket.pieces = 0;
        assert_eq!(bucket.state(), Some(State::Reserved));
    }

    /// Waiting takes the data type and a key; a generation of 16 is retired.
    #[test]
    fn waiting() {
        let mut bucket = status(9, 15);
        assert_eq!(bucket.state(), Some(State::Outside));
        bucket.need_discard = 1;
        assert_eq!(bucket.state(), Some(State::Waiting));
        assert!(!bucket.is_retired());
        let retired = Status {
            need_discard: 1,
            ..status(9, 16)
        };
        assert!(retired.is_retired());
        let in_use = Status {
            need_discard: 1,
            ..status(4, 16)
        };
        assert!(!in_use.is_waiting() && !in_use.is_retired());
    }
}
