//! Many cases on all processors, each thread with memory of its own.

use crate::memory::Memory;
use std::num::NonZero;
use std::sync::Mutex;
use std::sync::atomic::{AtomicU64, Ordering};
use std::thread;

/// The cases from 0 on that are handed out, and the first that failed.
struct Cases {
    count: u64,
    next: AtomicU64,
    failed: Mutex<Option<(u64, String)>>,
}

impl Cases {
    /// The next case; none once one has failed. All before it have been handed out and are finished.
    fn next(&self) -> Option<u64> {
        let number = self.next.fetch_add(1, Ordering::Relaxed);
        (number < self.count).then_some(number)
    }

    fn fail(&self, number: u64, why: String) {
        self.next.store(self.count, Ordering::Relaxed);
        let mut failed = self.failed.lock().unwrap_or_else(|poisoned| poisoned.into_inner());
        if failed.as_ref().is_none_or(|(first, _)| number < *first) {
            *failed = Some((number, why));
        }
    }

    fn take(&self, work: impl Fn(&mut Memory, u64) -> Result<(), String>) {
        let mut memory = match Memory::new() {
            Ok(memory) => memory,
            Err(error) => return self.fail(0, format!("no memory: {error}")),
        };
        while let Some(number) = self.next() {
            let panics = Panics { cases: self, number };
            if let Err(why) = work(&mut memory, number) {
                self.fail(number, why);
            }
            drop(panics);
        }
    }
}

/// A case that panics has failed.
struct Panics<'a> {
    cases: &'a Cases,
    number: u64,
}

impl Drop for Panics<'_> {
    fn drop(&mut self) {
        if thread::panicking() {
            self.cases.fail(self.number, format!("case {}: a model panicked", self.number));
        }
    }
}

/// Why the first of so many cases failed, if one did.
pub fn each(count: u64, work: impl Fn(&mut Memory, u64) -> Result<(), String> + Sync) -> Result<(), String> {
    let cases = Cases { count, next: AtomicU64::new(0), failed: Mutex::new(None) };
    let threads = thread::available_parallelism().map_or(1, NonZero::get);
    thread::scope(|scope| {
        let threads: Vec<_> = (0..threads).map(|_| scope.spawn(|| cases.take(&work))).collect();
        // A panic has been noted as a failure of its case.
        threads.into_iter().for_each(|thread| drop(thread.join()));
    });
    let failed = cases.failed.into_inner().unwrap_or_else(|poisoned| poisoned.into_inner());
    failed.map_or(Ok(()), |(_, why)| Err(why))
}

#[cfg(test)]
mod tests {
    use super::*;

    #[test]
    fn every_case_once() {
        let sum = AtomicU64::new(0);
        let all = each(1000, |_, number| {
            sum.fetch_add(number, Ordering::Relaxed);
            Ok(())
        });
        assert_eq!((all, sum.into_inner()), (Ok(()), 499_500));
    }

    #[test]
    fn the_first_that_failed() {
        let failed = each(1000, |_, number| if number % 300 == 299 { Err(number.to_string()) } else { Ok(()) });
        assert_eq!(failed, Err("299".into()));
    }

    #[test]
    fn a_panic_is_a_failure() {
        let failed = each(3, |_, number| if number == 1 { panic!("as it must") } else { Ok(()) });
        assert_eq!(failed, Err("case 1: a model panicked".into()));
    }
}
