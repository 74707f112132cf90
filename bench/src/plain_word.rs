//! The lock word as a Rust programmer writes it by hand: one atomic word on the heap, the same bits, and
//! the same tests. A try is one load and one exchange, and is made again at once where it is lost; a
//! reference is given back by one subtraction.

use std::cell::UnsafeCell;
use std::sync::atomic::{AtomicU64, Ordering::SeqCst};

const CLOSED: u64 = 1;
const READ_LOCK: u64 = 2;
const REFERENCE: u64 = 8;
const REFERENCES: u64 = 0x7ff_fff8;

/// A word, and a half that belongs to the holder of its read lock.
#[derive(Default)]
pub struct PlainWord {
    word: AtomicU64,
    half: UnsafeCell<u64>,
}

// SAFETY: `half` is used under the read lock alone, which one thread has at a time.
unsafe impl Sync for PlainWord {}

impl PlainWord {
    fn exchange(&self, found: u64, next: u64) -> bool {
        self.word
            .compare_exchange(found, next, SeqCst, SeqCst)
            .is_ok()
    }

    /// One try, or `None` where another step came between.
    fn try_incref(&self) -> Option<()> {
        let found = self.word.load(SeqCst);
        assert!(
            found & CLOSED == 0 && found & REFERENCES != REFERENCES,
            "no reference is to be had"
        );
        self.exchange(found, found + REFERENCE).then_some(())
    }

    /// Whether it was the last reference of a closed word.
    fn drop_ref(&self) -> bool {
        let found = self.word.fetch_sub(REFERENCE, SeqCst);
        assert!(found & REFERENCES != 0, "no reference to give back");
        found & CLOSED != 0 && found & REFERENCES == REFERENCE
    }

    /// `Some(false)` where another thread has the lock.
    fn try_lock(&self) -> Option<bool> {
        let found = self.word.load(SeqCst);
        assert!(
            found & CLOSED == 0 && found & REFERENCES != REFERENCES,
            "no lock is to be had"
        );
        if found & READ_LOCK != 0 {
            return Some(false);
        }
        self.exchange(found, found + REFERENCE + READ_LOCK)
            .then_some(true)
    }

    /// Whether it was the last reference of a closed word.
    fn try_unlock(&self) -> Option<bool> {
        let found = self.word.load(SeqCst);
        assert!(
            found & READ_LOCK != 0 && found & REFERENCES != 0,
            "no lock to give back"
        );
        let last = found & CLOSED != 0 && found & REFERENCES == REFERENCE;
        self.exchange(found, found - REFERENCE - READ_LOCK)
            .then_some(last)
    }

    /// Takes a reference and drops it.
    pub fn reference_round(&self) {
        while self.try_incref().is_none() {}
        assert!(!self.drop_ref(), "nobody closes the word");
    }

    /// Adds 1 to the half under the read lock. Who finds the lock taken spins.
    pub fn read_round(&self) {
        while self.try_lock() != Some(true) {
            std::hint::spin_loop();
        }
        // SAFETY: this thread has the lock.
        unsafe { *self.half.get() += 1 };
        while self.try_unlock().is_none() {}
    }

    /// The word and the half, once the threads are gone.
    pub fn left(&mut self) -> (u64, u64) {
        (*self.word.get_mut(), *self.half.get_mut())
    }
}
