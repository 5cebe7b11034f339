//! Counting, comparing and telling what failed.

use crate::call::{Call, Kind};
use crate::library::{Edge, Library};
use crate::plots::Chance;
use crate::sheet;
use std::cell::RefCell;
use std::ffi::c_int;
use std::ptr::null_mut;
use std::sync::atomic::{AtomicPtr, AtomicU64, Ordering::Relaxed};
use std::time::Instant;

static PASSED: AtomicU64 = AtomicU64::new(0);
static FAILED: AtomicU64 = AtomicU64::new(0);
/// The call that the library is in.
static CURRENT: AtomicPtr<Call> = AtomicPtr::new(null_mut());

extern "C" {
    fn signal(number: c_int, handler: extern "C" fn(c_int)) -> usize;
}

/// A call that touched a guard page, or one that the processor stopped.
extern "C" fn crashed(number: c_int) {
    let call = CURRENT.load(Relaxed);
    if !call.is_null() {
        println!("FAILED: signal {number} in this call\n  {}", unsafe { &*call });
    }
    println!("{} passed, {} failed", PASSED.load(Relaxed), FAILED.load(Relaxed) + 1);
    std::process::exit(1);
}

pub struct Tester {
    library: Library,
    group: String,
    started: Instant,
    at_start: u64,
    shown: u32,
    /// End at the first failure.
    stop: bool,
    /// Ask the library for calls of this kind alone.
    only: Option<Kind>,
    /// For the choice among sheets that mean the same.
    chance: RefCell<Chance>,
}

pub type Outcome = Result<(), String>;

impl Tester {
    pub fn new(stop: bool, only: Option<Kind>) -> Tester {
        const ILL: c_int = 4;
        const ABORT: c_int = 6;
        const BUS: c_int = 7;
        const FPE: c_int = 8;
        const SEGV: c_int = 11;
        for number in [ILL, ABORT, BUS, FPE, SEGV] {
            unsafe { signal(number, crashed) };
        }
        Tester {
            library: Library::new(),
            group: String::new(),
            started: Instant::now(),
            at_start: 0,
            shown: 0,
            stop,
            only,
            chance: RefCell::new(Chance(1)),
        }
    }

    /// Ends the group before and starts another.
    pub fn group(&mut self, name: &str) {
        let cases = PASSED.load(Relaxed) + FAILED.load(Relaxed);
        if !self.group.is_empty() {
            let seconds = self.started.elapsed().as_secs_f64();
            println!("{}: {} cases, {seconds:.1} s", self.group, cases - self.at_start);
        }
        self.group = name.to_string();
        self.started = Instant::now();
        self.at_start = cases;
        self.shown = 0;
    }

    /// Counts one case. The first failures of a group are told in full.
    pub fn case(&mut self, outcome: Outcome) {
        match outcome {
            Ok(()) => PASSED.fetch_add(1, Relaxed),
            Err(why) => {
                self.shown += 1;
                if self.shown <= 3 {
                    println!("FAILED in {}: {why}", self.group);
                }
                let before = FAILED.fetch_add(1, Relaxed);
                if self.stop {
                    self.finish();
                    std::process::exit(1);
                }
                before
            }
        };
    }

    /// Prints the sum; true if all passed.
    pub fn finish(&mut self) -> bool {
        self.group("");
        println!("{} passed, {} failed", PASSED.load(Relaxed), FAILED.load(Relaxed));
        FAILED.load(Relaxed) == 0 && PASSED.load(Relaxed) > 0
    }

    /// Is the library asked for calls of this kind?
    pub fn asks(&self, kind: Kind) -> bool {
        self.only.is_none_or(|only| only == kind)
    }

    /// The answer and the lists afterwards, where the library and the second
    /// opinion agree on them, wherever the lists lie, and by another sheet that
    /// means the same rule.
    pub fn agree(&self, call: &Call) -> Result<(Vec<u32>, Call), String> {
        let mut expected = call.clone();
        let answer = expected.by_opinion();
        if !self.asks(call.kind) {
            return Ok((answer, expected));
        }
        for edge in [Edge::Start, Edge::End, Edge::Null] {
            if edge != Edge::Null || call.lends_empty() {
                self.gives(call, edge, &answer, &expected)?;
            }
        }
        if let Some(sheet) = self.another_sheet(call) {
            let other = Call { sheet: sheet.to_vec(), ..call.clone() };
            expected.sheet = sheet.to_vec();
            self.gives(&other, Edge::Null, &answer, &expected)?;
            expected.sheet = call.sheet.clone();
        }
        Ok((answer, expected))
    }

    /// Another sheet with the meaning of the call's, if it needs one.
    fn another_sheet(&self, call: &Call) -> Option<&'static [u8]> {
        let alike = sheet::meaning(call.rule()?);
        Some(self.chance.borrow_mut().of(alike)).filter(|&sheet| sheet != call.sheet)
    }

    /// The library gives this answer and leaves these lists.
    fn gives(&self, call: &Call, edge: Edge, answer: &[u32], expected: &Call) -> Outcome {
        let mut got = call.clone();
        CURRENT.store(call as *const Call as *mut Call, Relaxed);
        let got_answer = self.library.run(&mut got, edge);
        CURRENT.store(null_mut(), Relaxed);
        if got_answer == answer && got == *expected {
            return Ok(());
        }
        Err(format!(
            "answer {got_answer:?}, should be {answer:?}; lists at {edge:?}{}\n  {call}",
            got.differences(expected)
        ))
    }
}

/// Fails with the call's arguments where a law does not hold.
pub fn law(holds: bool, name: &str, call: &Call) -> Outcome {
    if holds {
        Ok(())
    } else {
        Err(format!("{name}\n  {call}"))
    }
}
