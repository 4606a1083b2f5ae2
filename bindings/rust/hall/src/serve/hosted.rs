//! The one session that all connections share, and its clock.

use super::marks::{random_bits, Marks};
use super::offer::{self, Offered};
use super::session::Session;
use mulkefi::Refusal;
use std::sync::{Mutex, PoisonError};
use std::time::{Duration, Instant};

pub struct Hosted {
    session: Mutex<Session>,
    offered: Vec<Offered>,
    since: Instant,
}

impl Hosted {
    pub fn open() -> Result<Hosted, Refusal> {
        // The upper half alone, so that a revision that begins there is a whole number in a page's script.
        let marks = Marks::new((random_bits() >> 32) as u32);
        let session = Mutex::new(Session::open(marks, random_bits())?);
        Ok(Hosted { session, offered: offer::all(), since: Instant::now() })
    }

    /// Does some work on the session and keeps it. The work is done on a copy, so that after one that
    /// panics the session is what it was before.
    pub fn with<T>(&self, work: impl FnOnce(&mut Session, Duration) -> T) -> T {
        let mut kept = self.session.lock().unwrap_or_else(PoisonError::into_inner);
        let mut copy = kept.clone();
        let answer = work(&mut copy, self.since.elapsed());
        *kept = copy;
        answer
    }

    pub fn offered(&self) -> &[Offered] {
        &self.offered
    }
}

#[cfg(test)]
mod tests {
    use super::*;
    use std::panic::{catch_unwind, AssertUnwindSafe};

    #[test]
    fn a_panic_leaves_the_session_as_it_was() {
        let hosted = Hosted::open().expect("the opening bridge is a good image");
        let revision = hosted.with(|session, _| session.revision);
        let panicked = catch_unwind(AssertUnwindSafe(|| {
            hosted.with(|session, _| {
                session.revision += 5;
                session.door_is_open = false;
                panic!("on purpose, by a test");
            })
        }));
        assert!(panicked.is_err());
        let after = hosted.with(|session, _| (session.revision, session.door_is_open));
        assert_eq!(after, (revision, true));
    }
}
