//! Fault simulation of combinational circuits and of circuits with full scan, over the static
//! library of `faultsim.h`.
//!
//! The code below keeps the header's rules, so that a caller of it has none to keep. [`Job`] is
//! `Send` and not `Sync`: [`Job::share`] gives another thread a job of its own.

mod sys;

pub use sys::{Fault, Pin, Site, Sizes};

use std::cell::UnsafeCell;
use std::error::Error as StdError;
use std::ffi::CStr;
use std::fmt;
use sys::Handle;

/// A fault model.
#[derive(Clone, Copy, Debug, PartialEq, Eq)]
pub enum Model {
    /// A line is stuck at 0 or at 1.
    StuckAt = 0,
    /// A line is slow to rise or to fall; each test is the capture test of the one before it.
    Transition = 1,
    /// The same; tests 2k and 2k + 1 are a launch/capture pair.
    TransitionPairs = 2,
}

/// Which faults have a line in a report.
#[derive(Clone, Copy, Debug, PartialEq, Eq)]
pub enum Lines {
    /// None.
    None = 0,
    /// All faults.
    All = 1,
    /// The faults that no test detects.
    Undetected = 2,
}

/// The kind of a signal.
#[derive(Clone, Copy, Debug, PartialEq, Eq)]
#[non_exhaustive]
pub enum SignalKind {
    /// A primary input or a scan cell.
    Source = 0,
    And,
    Nand,
    Or,
    Nor,
    Xor,
    Xnor,
    Not,
    Buff,
}

impl SignalKind {
    const ALL: [SignalKind; 9] = [
        SignalKind::Source,
        SignalKind::And,
        SignalKind::Nand,
        SignalKind::Or,
        SignalKind::Nor,
        SignalKind::Xor,
        SignalKind::Xnor,
        SignalKind::Not,
        SignalKind::Buff,
    ];
}

/// A call that writes a row of pins for each signal.
type RowsCall<P> =
    unsafe extern "C" fn(*mut Handle, *mut u32, usize, *mut P, usize, *mut usize) -> u32;

/// The fan-in of each signal: the signals that the pins of its gate read, in order.
#[derive(Clone, Debug, PartialEq, Eq)]
pub struct FanIns {
    /// The place in `pins` at which the fan-in of each signal starts, and then the number of pins.
    pub starts: Vec<u32>,
    pub pins: Vec<u32>,
}

impl FanIns {
    /// Returns the fan-in of one signal; a source has none.
    ///
    /// # Panics
    ///
    /// If the number of the signal is out of range.
    pub fn of(&self, signal: u32) -> &[u32] {
        let at = signal as usize;
        &self.pins[self.starts[at] as usize..self.starts[at + 1] as usize]
    }
}

/// The fan-out of each signal: the pins of gates that read it, by the number of the gate's signal
/// and then by pin. The data pins of flip-flops and the OUTPUT lines are observers
/// ([`Job::observers`]).
#[derive(Clone, Debug, PartialEq, Eq)]
pub struct FanOuts {
    /// The place in `pins` at which the fan-out of each signal starts, and then the number of pins.
    pub starts: Vec<u32>,
    pub pins: Vec<Pin>,
}

impl FanOuts {
    /// Returns the fan-out of one signal.
    ///
    /// # Panics
    ///
    /// If the number of the signal is out of range.
    pub fn of(&self, signal: u32) -> &[Pin] {
        let at = signal as usize;
        &self.pins[self.starts[at] as usize..self.starts[at + 1] as usize]
    }
}

/// Why a call fails.
#[derive(Clone, Copy, Debug, PartialEq, Eq)]
pub enum Error {
    /// Memory ran out.
    Memory,
    /// A text or words are wrong: a kind of `faultsim.h`, and a line from 1 or a source from 0.
    Refused(Fault),
    /// A number is out of range, or a length is not what it must be.
    OutOfRange,
    /// Another job shares the circuit and its tests.
    Shared,
}

/// What is wrong with a text or words: the kinds of `faultsim.h`.
#[derive(Clone, Copy, Debug, PartialEq, Eq)]
#[non_exhaustive]
pub enum Kind {
    BenchBytes = 1,
    BenchSignals,
    BenchSinks,
    BenchSyntax,
    BenchRedefined,
    BenchUndefined,
    BenchCycle,
    BenchEmpty,
    TestsByte,
    TestsWidth,
    TestsMany,
    WordsMany,
    WordsCount,
    WordsIdle,
}

impl Kind {
    const ALL: [Kind; 14] = [
        Kind::BenchBytes,
        Kind::BenchSignals,
        Kind::BenchSinks,
        Kind::BenchSyntax,
        Kind::BenchRedefined,
        Kind::BenchUndefined,
        Kind::BenchCycle,
        Kind::BenchEmpty,
        Kind::TestsByte,
        Kind::TestsWidth,
        Kind::TestsMany,
        Kind::WordsMany,
        Kind::WordsCount,
        Kind::WordsIdle,
    ];

    /// Returns the kind of an error, if this crate knows it.
    pub fn of(fault: Fault) -> Option<Kind> {
        Kind::ALL.into_iter().find(|it| *it as u32 == fault.kind)
    }
}

impl Error {
    /// Returns the status that `faultsim.h` has for it.
    fn status(self) -> u32 {
        match self {
            Error::Memory => 2,
            Error::Refused(_) => 3,
            Error::OutOfRange => 4,
            Error::Shared => 5,
        }
    }
}

impl fmt::Display for Error {
    fn fmt(&self, to: &mut fmt::Formatter<'_>) -> fmt::Result {
        let fault = match self {
            Error::Refused(fault) => *fault,
            _ => Fault::default(),
        };
        let mut text = [0; 128];
        // SAFETY: each pointer comes of a reference, and the length is that of the room.
        let wanted =
            unsafe { sys::fs_message(self.status(), &fault, text.as_mut_ptr().cast(), text.len()) };
        let said = &text[..wanted.min(text.len() - 1)];
        to.write_str(&String::from_utf8_lossy(said))
    }
}

impl StdError for Error {}

/// A call that writes a word of a block for each number of a list.
type WordsOf =
    unsafe extern "C" fn(*mut sys::Handle, u32, *const u32, usize, *mut u64, usize) -> u32;

/// The error of a status. A [`Job`] always has a job, so status 1 never comes.
fn told(status: u32, fault: Fault) -> Result<(), Error> {
    match status {
        0 => Ok(()),
        2 => Err(Error::Memory),
        3 => Err(Error::Refused(fault)),
        5 => Err(Error::Shared),
        _ => Err(Error::OutOfRange),
    }
}

/// A circuit, its faults in classes, and tests.
#[derive(Debug)]
pub struct Job(UnsafeCell<Handle>);

// SAFETY: the library's proof says that what a handle holds may go to another thread.
unsafe impl Send for Job {}

impl Job {
    fn none() -> Job {
        Job(UnsafeCell::new(Handle::EMPTY))
    }

    /// Reads a bench file's text. The job has no tests yet.
    pub fn read(model: Model, bench: &[u8]) -> Result<Job, Error> {
        let (job, mut fault) = (Job::none(), Fault::default());
        // SAFETY: each pointer comes of a reference, and the handle is zeros.
        let status = unsafe {
            sys::fs_job_read(
                model as u32,
                bench.as_ptr(),
                bench.len(),
                job.0.get(),
                &mut fault,
            )
        };
        told(status, fault)?;
        Ok(job)
    }

    /// Makes a second job of the same circuit, faults and tests, for another thread.
    pub fn share(&mut self) -> Result<Job, Error> {
        let other = Job::none();
        // SAFETY: as above, and the two handles are two.
        told(
            unsafe { sys::fs_job_share(self.0.get(), other.0.get()) },
            Fault::default(),
        )?;
        Ok(other)
    }

    /// Returns the sizes of the job.
    pub fn sizes(&self) -> Sizes {
        let mut sizes = Sizes::default();
        // SAFETY: as above. A `Job` has a job, so the call is done.
        unsafe { sys::fs_sizes_of(self.0.get(), &mut sizes) };
        sizes
    }

    /// Takes tests in words in place of the job's: for each block of 64 tests one for each source;
    /// bit k of it is the source's bit in test `64 * block + k`.
    pub fn set_words(&mut self, count: u32, words: &[u64]) -> Result<(), Error> {
        let mut fault = Fault::default();
        // SAFETY: as above.
        let status = unsafe {
            sys::fs_set_words(self.0.get(), count, words.as_ptr(), words.len(), &mut fault)
        };
        told(status, fault)
    }

    /// Takes tests in words as [`Job::set_words`] does, but after the job's last test, which is
    /// test 0 of the new list: so under [`Model::Transition`] the pair of it and the first new test
    /// isn't lost. Under [`Model::TransitionPairs`] use [`Job::set_words`]: this call would move the
    /// pairs by one test.
    pub fn next_words(&mut self, count: u32, words: &[u64]) -> Result<(), Error> {
        let mut fault = Fault::default();
        // SAFETY: as above.
        let status = unsafe {
            sys::fs_next_words(self.0.get(), count, words.as_ptr(), words.len(), &mut fault)
        };
        told(status, fault)
    }

    /// Takes the tests of a text in place of the job's: a line of 0s and 1s for each.
    pub fn set_text(&mut self, text: &[u8]) -> Result<(), Error> {
        let mut fault = Fault::default();
        // SAFETY: as above.
        let status =
            unsafe { sys::fs_set_text(self.0.get(), text.as_ptr(), text.len(), &mut fault) };
        told(status, fault)
    }

    /// Returns the class of each fault.
    pub fn classes_of(&self) -> Vec<u32> {
        let mut of = vec![0; self.sizes().faults as usize];
        // SAFETY: as above, and the length is the number of faults.
        unsafe { sys::fs_classes_of(self.0.get(), of.as_mut_ptr(), of.len()) };
        of
    }

    /// Returns the stem of each class, the signal at which its fanout-free region ends.
    pub fn stems_of(&self) -> Vec<u32> {
        let mut stems = vec![0; self.sizes().classes as usize];
        // SAFETY: as above, and the length is the number of classes.
        unsafe { sys::fs_stems_of(self.0.get(), stems.as_mut_ptr(), stems.len()) };
        stems
    }

    /// Returns the name of a signal.
    pub fn name_of(&self, signal: u32) -> Result<String, Error> {
        // SAFETY: as above; the call tests the number.
        self.text(|job, text, room, wanted| unsafe {
            sys::fs_name_of(job, signal, text, room, wanted)
        })
    }

    /// Returns the name of a fault, as each line of `faultsim faults` begins: `stem G1 sa0`.
    pub fn fault_name(&self, fault: u32) -> Result<String, Error> {
        // SAFETY: as above; the call tests the number.
        self.text(|job, text, room, wanted| unsafe {
            sys::fs_fault_text(job, fault, text, room, wanted)
        })
    }

    /// Returns the text of a call whose last argument gets the number of its bytes.
    fn text(
        &self,
        call: impl Fn(*mut Handle, *mut u8, usize, *mut usize) -> u32,
    ) -> Result<String, Error> {
        let (mut text, mut wanted) = (Vec::new(), 0);
        loop {
            let status = call(self.0.get(), text.as_mut_ptr(), text.len(), &mut wanted);
            if status == 4 && text.len() < wanted {
                text.resize(wanted, 0);
                continue;
            }
            told(status, Fault::default())?;
            return Ok(String::from_utf8_lossy(&text).into_owned());
        }
    }

    /// Returns the place of a signal in a test, from 0, or none for the signal of a gate.
    pub fn source_of(&self, signal: u32) -> Option<u32> {
        let mut place = 0;
        // SAFETY: as above; the call tests the number.
        let status = unsafe { sys::fs_source_of(self.0.get(), signal, &mut place) };
        (status == 0).then_some(place)
    }

    /// Returns the number of the signal of a name, or none if no signal has it.
    pub fn signal_named(&self, name: &str) -> Option<u32> {
        let mut signal = 0;
        // SAFETY: as above.
        let status =
            unsafe { sys::fs_signal_named(self.0.get(), name.as_ptr(), name.len(), &mut signal) };
        (status == 0).then_some(signal)
    }

    /// Returns the kind of each signal.
    pub fn kinds_of(&self) -> Vec<SignalKind> {
        let mut kinds = vec![0; self.sizes().signals as usize];
        // SAFETY: as above, and the length is the number of signals.
        unsafe { sys::fs_kinds_of(self.0.get(), kinds.as_mut_ptr(), kinds.len()) };
        kinds
            .into_iter()
            .map(|kind: u32| SignalKind::ALL[kind as usize])
            .collect()
    }

    /// Returns the level of each signal: 0 for a source, and for the signal of a gate one more than
    /// the greatest level of the signals that the gate reads.
    pub fn levels_of(&self) -> Vec<u32> {
        let mut levels = vec![0; self.sizes().signals as usize];
        // SAFETY: as above, and the length is the number of signals.
        unsafe { sys::fs_levels_of(self.0.get(), levels.as_mut_ptr(), levels.len()) };
        levels
    }

    /// Returns the fan-in of each signal.
    pub fn fan_ins_of(&self) -> FanIns {
        let (starts, pins) = self.rows_by(sys::fs_fan_ins_of);
        FanIns { starts, pins }
    }

    /// Returns the fan-out of each signal.
    pub fn fan_outs_of(&self) -> FanOuts {
        let (starts, pins) = self.rows_by(sys::fs_fan_outs_of);
        FanOuts { starts, pins }
    }

    /// Returns the rows of all signals that a call writes, once it has told their number of pins.
    fn rows_by<P: Clone + Default>(&self, call: RowsCall<P>) -> (Vec<u32>, Vec<P>) {
        let mut starts = vec![0; self.sizes().signals as usize + 1];
        let (mut pins, mut wanted) = (Vec::new(), 0);
        loop {
            // SAFETY: as above.
            let status = unsafe {
                call(
                    self.0.get(),
                    starts.as_mut_ptr(),
                    starts.len(),
                    pins.as_mut_ptr(),
                    pins.len(),
                    &mut wanted,
                )
            };
            if status == 0 || pins.len() == wanted {
                return (starts, pins);
            }
            pins.resize(wanted, P::default());
        }
    }

    /// Returns the site of each fault.
    pub fn sites_of(&self) -> Vec<Site> {
        let mut sites = vec![Site::default(); self.sizes().faults as usize];
        // SAFETY: as above, and the length is the number of faults.
        unsafe { sys::fs_sites_of(self.0.get(), sites.as_mut_ptr(), sites.len()) };
        sites
    }

    /// Returns the fault of a site, or none if the circuit has no such fault. It looks at one fault
    /// after another: for many sites make a table from [`Job::sites_of`].
    pub fn fault_at(&self, site: Site) -> Option<u32> {
        let mut fault = 0;
        // SAFETY: as above.
        let status = unsafe { sys::fs_fault_at(self.0.get(), &site, &mut fault) };
        (status == 0).then_some(fault)
    }

    /// Returns the fault-free values of all signals in the tests of a block, a word for each
    /// signal. Bits past the last test may be 1.
    pub fn values(&self, block: u32) -> Result<Vec<u64>, Error> {
        let mut words = vec![0; self.sizes().signals as usize];
        // SAFETY: as above; the call tests the block, and the length is the number of signals.
        told(
            unsafe { sys::fs_values(self.0.get(), block, words.as_mut_ptr(), words.len()) },
            Fault::default(),
        )?;
        Ok(words)
    }

    /// Returns the fault-free value of a signal: bit k is that in test `64 * block + k`. Bits past
    /// the last test may be 1.
    pub fn word(&self, block: u32, signal: u32) -> Result<u64, Error> {
        let mut word = 0;
        // SAFETY: as above; the call tests the numbers.
        told(
            unsafe { sys::fs_word(self.0.get(), block, signal, &mut word) },
            Fault::default(),
        )?;
        Ok(word)
    }

    /// Returns the signal of each observer: the OUTPUT lines, and then the data pins of the
    /// flip-flops.
    pub fn observers(&self) -> Vec<u32> {
        let (mut signals, mut wanted) = (Vec::new(), 0);
        loop {
            // SAFETY: as above.
            unsafe {
                sys::fs_observers_of(
                    self.0.get(),
                    signals.as_mut_ptr(),
                    signals.len(),
                    &mut wanted,
                )
            };
            if signals.len() >= wanted {
                return signals;
            }
            signals.resize(wanted, 0);
        }
    }

    /// Returns the fault-free values of the observers: for each block a word for each of them. Bits
    /// past the last test may be 1.
    pub fn responses(&self) -> Vec<u64> {
        let mut words = vec![0; self.sizes().blocks as usize * self.observers().len()];
        // SAFETY: as above, and the length is that of the words.
        unsafe { sys::fs_responses(self.0.get(), words.as_mut_ptr(), words.len()) };
        words
    }

    /// Returns the report that `faultsim run` writes: the lines that are asked for, the coverage,
    /// and with `classes` that of the classes.
    pub fn report(&self, lines: Lines, classes: bool) -> Result<String, Error> {
        // SAFETY: as above; the call tests the number.
        self.text(|job, text, room, wanted| unsafe {
            sys::fs_report(job, lines as u32, classes, text, room, wanted)
        })
    }

    /// Finds the first test that detects each class of a list.
    pub fn simulate(&self, classes: &[u32]) -> Result<Vec<Option<u32>>, Error> {
        let mut firsts = vec![0; classes.len()];
        // SAFETY: as above; the call tests the classes.
        let status = unsafe {
            sys::fs_simulate(
                self.0.get(),
                classes.as_ptr(),
                classes.len(),
                firsts.as_mut_ptr(),
                firsts.len(),
            )
        };
        told(status, Fault::default())?;
        Ok(firsts.into_iter().map(some_test).collect())
    }

    /// Returns for each signal of a list the tests of a block in which complementing the signal is
    /// seen at an observer: bit k of its word is 1 exactly if test `64 * block + k` detects the
    /// signal stuck at the complement of its fault-free value, under every fault model.
    pub fn observed(&self, block: u32, signals: &[u32]) -> Result<Vec<u64>, Error> {
        self.words_of(sys::fs_observed, block, signals)
    }

    /// Returns for each class of a list the word that [`Job::detecting`] returns for the class and
    /// the block. It simulates region by region.
    pub fn lanes(&self, block: u32, classes: &[u32]) -> Result<Vec<u64>, Error> {
        self.words_of(sys::fs_lanes, block, classes)
    }

    /// Returns what a call writes for each number of a list: a word of a block.
    fn words_of(&self, call: WordsOf, block: u32, numbers: &[u32]) -> Result<Vec<u64>, Error> {
        let mut words = vec![0; numbers.len()];
        // SAFETY: as above; the call tests the block and the numbers.
        let status = unsafe {
            call(
                self.0.get(),
                block,
                numbers.as_ptr(),
                numbers.len(),
                words.as_mut_ptr(),
                words.len(),
            )
        };
        told(status, Fault::default())?;
        Ok(words)
    }

    /// Adds to the count of each class of a list the number of tests of a block that detect it, up
    /// to `most`. The lengths are equal. It simulates region by region.
    pub fn count(
        &self,
        block: u32,
        classes: &[u32],
        most: u32,
        counts: &mut [u32],
    ) -> Result<(), Error> {
        // SAFETY: as above; the call tests the block, the classes and the lengths.
        let status = unsafe {
            sys::fs_count(
                self.0.get(),
                block,
                classes.as_ptr(),
                classes.len(),
                most,
                counts.as_mut_ptr(),
                counts.len(),
            )
        };
        told(status, Fault::default())
    }

    /// Returns a word: bit k is 1 exactly if test `64 * block + k` detects the class.
    pub fn detecting(&self, class: u32, block: u32) -> Result<u64, Error> {
        let mut lanes = 0;
        // SAFETY: as above; the call tests the numbers.
        let status = unsafe { sys::fs_detecting(self.0.get(), class, block, &mut lanes) };
        told(status, Fault::default())?;
        Ok(lanes)
    }

    /// Counts how many tests detect each class of a list, no more than `most` of a class. It
    /// simulates region by region, and leaves out a class whose count is `most`.
    pub fn detections(&self, classes: &[u32], most: u32) -> Result<Vec<u32>, Error> {
        let mut counts = vec![0; classes.len()];
        // SAFETY: as above; the call tests the classes.
        let status = unsafe {
            sys::fs_detections(
                self.0.get(),
                classes.as_ptr(),
                classes.len(),
                most,
                counts.as_mut_ptr(),
                counts.len(),
            )
        };
        told(status, Fault::default())?;
        Ok(counts)
    }

    /// Returns the number of faults that the job's tests detect, and the number of all faults.
    pub fn coverage(&self) -> Result<(u32, u32), Error> {
        let firsts: Vec<_> = self.faults()?.map(|it| it.first).collect();
        let found = firsts.iter().filter(|it| it.is_some()).count();
        Ok((found as u32, firsts.len() as u32))
    }

    /// Iterates over the faults, each with its class and the first test that detects it.
    pub fn faults(&self) -> Result<impl Iterator<Item = FaultFirst>, Error> {
        let classes: Vec<u32> = (0..self.sizes().classes).collect();
        let firsts = self.simulate(&classes)?;
        let of = self.classes_of();
        Ok(of
            .into_iter()
            .enumerate()
            .map(move |(fault, class)| FaultFirst {
                fault: fault as u32,
                class,
                first: firsts[class as usize],
            }))
    }
}

impl Drop for Job {
    fn drop(&mut self) {
        // SAFETY: as above.
        unsafe { sys::fs_job_free(self.0.get()) }
    }
}

/// A fault, its class and the first test that detects it. All count from 0.
#[derive(Clone, Copy, Debug, PartialEq, Eq)]
pub struct FaultFirst {
    pub fault: u32,
    pub class: u32,
    pub first: Option<u32>,
}

/// The test of a number, none if the number is the greatest.
fn some_test(first: u32) -> Option<u32> {
    (first != u32::MAX).then_some(first)
}

/// Returns the release of the library that is linked, such as `0.3.0`, or `0.3.0 (unproved)` if
/// nothing of it was proved.
pub fn release() -> &'static str {
    // SAFETY: the call takes nothing, and its text ends in a 0 and lasts as long as the program.
    let text = unsafe { CStr::from_ptr(sys::fs_release()) };
    text.to_str().unwrap_or_default()
}

/// Returns the version of the calls in the library that is linked; this crate is for 1.
pub fn version() -> u32 {
    // SAFETY: the call takes nothing.
    unsafe { sys::fs_version() }
}

/// Finds the first test of a text that detects each fault of a circuit, in one call.
pub fn firsts(model: Model, bench: &[u8], tests: &[u8]) -> Result<Vec<Option<u32>>, Error> {
    let (mut firsts, mut count, mut fault) = (Vec::new(), 0, Fault::default());
    loop {
        // SAFETY: each pointer comes of a reference.
        let status = unsafe {
            sys::fs_firsts(
                model as u32,
                bench.as_ptr(),
                bench.len(),
                tests.as_ptr(),
                tests.len(),
                firsts.as_mut_ptr(),
                firsts.len(),
                &mut count,
                &mut fault,
            )
        };
        if status == 4 && firsts.len() != count as usize {
            firsts.resize(count as usize, 0);
            continue;
        }
        told(status, fault)?;
        return Ok(firsts.into_iter().map(some_test).collect());
    }
}
