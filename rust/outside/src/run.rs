//! A whole run: cases in order, each file once, checked by two workers.

use crate::cases::{case, Case};
use crate::compare::{check, Difference};
use crate::tally::Tally;
use std::collections::HashSet;
use std::panic::{catch_unwind, AssertUnwindSafe};
use std::sync::{Mutex, PoisonError};
use std::thread;

const WORKERS: usize = 2;

/// The cases of a run, as far as they have been handed out.
struct Source {
    seed: u64,
    next: u64,
    files: usize,
    seen: HashSet<Vec<u8>>,
    /// A worker has found a difference.
    over: bool,
}

/// A case and what differed.
pub struct Failure {
    pub case: Case,
    pub difference: Difference,
}

impl Source {
    /// The next case whose file was not there before, until the run has as many as it asks for.
    fn next(&mut self) -> Option<Case> {
        while !self.over && self.seen.len() < self.files {
            let case = case(self.seed, self.next);
            self.next += 1;
            if self.seen.insert(case.file.clone()) {
                return Some(case);
            }
        }
        None
    }
}

/// Checks the first `files` different files of a seed.
pub fn run(seed: u64, files: usize) -> Result<Tally, Failure> {
    let seen = HashSet::new();
    let source = Mutex::new(Source {
        seed,
        next: 0,
        files,
        seen,
        over: false,
    });
    let mut sum = Tally::default();
    thread::scope(|scope| {
        let workers: Vec<_> = (0..WORKERS)
            .map(|_| scope.spawn(|| work(&source)))
            .collect();
        for worker in workers {
            sum.add(&worker.join().expect("a worker catches its own panics")?);
        }
        Ok(sum)
    })
}

/// Checks cases until there are none left, or one fails.
fn work(source: &Mutex<Source>) -> Result<Tally, Failure> {
    let lock = || source.lock().unwrap_or_else(PoisonError::into_inner);
    let mut tally = Tally::default();
    loop {
        let Some(case) = lock().next() else {
            return Ok(tally);
        };
        if let Err(difference) = check_one(&case, &mut tally) {
            lock().over = true;
            return Err(Failure { case, difference });
        }
    }
}

/// Checks one case. A panic of the library's caller or of the reference is a difference too.
pub fn check_one(case: &Case, tally: &mut Tally) -> Result<(), Difference> {
    catch_unwind(AssertUnwindSafe(|| check(case, tally)))
        .unwrap_or_else(|_| Err("a call did not come back: see the message above".to_string()))
}
