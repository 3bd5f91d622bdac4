//! Runs the calls of `bindings/cases.txt`, and compares their results.

use faultsim::{firsts, version, Error, Fault, Job, Lines, Model, Site};
use std::cell::Cell;
use std::collections::HashMap;
use std::ffi::c_void;

extern "C" {
    fn __libc_malloc(size: usize) -> *mut c_void;
    fn __libc_realloc(at: *mut c_void, size: usize) -> *mut c_void;
}

thread_local! {
    /// Whether the allocations of this thread are refused.
    static REFUSED: Cell<bool> = const { Cell::new(false) };
}

/// Stands in place of the C library's, for the library that is tested.
#[no_mangle]
extern "C" fn malloc(size: usize) -> *mut c_void {
    if REFUSED.get() {
        return std::ptr::null_mut();
    }
    // SAFETY: the C library's malloc takes any size.
    unsafe { __libc_malloc(size) }
}

/// # Safety
///
/// As realloc's.
#[no_mangle]
unsafe extern "C" fn realloc(at: *mut c_void, size: usize) -> *mut c_void {
    if REFUSED.get() {
        return std::ptr::null_mut();
    }
    // SAFETY: the caller's.
    unsafe { __libc_realloc(at, size) }
}

/// A call: its job, its arguments, the texts, and whether memory is refused.
struct Call<'a> {
    job: Option<&'a mut Job>,
    words: Vec<&'a str>,
    texts: &'a HashMap<String, String>,
    is_refused: bool,
}

impl Call<'_> {
    fn number(&self, at: usize) -> u32 {
        self.words[at].parse().expect("a number")
    }

    fn text(&self, at: usize) -> &[u8] {
        self.texts[self.words[at]].as_bytes()
    }

    fn job(&self) -> &Job {
        self.job.as_deref().expect("a job")
    }

    fn model(&self) -> Model {
        match self.words[0] {
            "stuck" => Model::StuckAt,
            "transition" => Model::Transition,
            "transition-pairs" => Model::TransitionPairs,
            other => panic!("no model {other}"),
        }
    }

    fn numbers(&self, at: usize, count: u32) -> Vec<u32> {
        match self.words.get(at) {
            Some(&"all") => (0..count).collect(),
            _ => (at..self.words.len()).map(|it| self.number(it)).collect(),
        }
    }

    fn classes(&self, at: usize) -> Vec<u32> {
        self.numbers(at, self.job().sizes().classes)
    }

    fn given_words(&self, at: usize) -> Vec<u64> {
        let spelled = self.words[at..].iter();
        spelled
            .map(|it| u64::from_str_radix(it, 16).expect("a word"))
            .collect()
    }

    /// Runs a call of the library, which gets no memory if it is refused.
    fn run<T>(&self, call: impl FnOnce() -> Result<T, Error>) -> Result<T, Error> {
        REFUSED.set(self.is_refused);
        let result = call();
        REFUSED.set(false);
        result
    }
}

fn joined<T: ToString>(items: impl IntoIterator<Item = T>, between: &str) -> String {
    let spelled: Vec<String> = items.into_iter().map(|it| it.to_string()).collect();
    spelled.join(between)
}

fn tests_of(firsts: Vec<Option<u32>>) -> String {
    joined(
        firsts
            .into_iter()
            .map(|it| it.map_or("-".to_string(), |test| test.to_string())),
        " ",
    )
}

/// The tests of a block as bits.
fn lanes_of(job: &Job, block: usize) -> u64 {
    match job.sizes().tests as usize - 64 * block {
        left if left >= 64 => u64::MAX,
        left => (1 << left) - 1,
    }
}

/// The names of the sources, in the order of a test's bits.
fn sources(job: &Job) -> Result<String, Error> {
    let sizes = job.sizes();
    let mut names = vec![String::new(); sizes.sources as usize];
    for signal in 0..sizes.signals {
        if let Some(place) = job.source_of(signal) {
            names[place as usize] = job.name_of(signal)?;
        }
    }
    Ok(names.join(" "))
}

fn responses(job: &Job) -> String {
    let (observers, words) = (job.observers().len(), job.responses());
    let masked = words.iter().enumerate();
    joined(
        masked.map(|(i, word)| format!("{:x}", word & lanes_of(job, i / observers))),
        " ",
    )
}

fn sizes(job: &Job) -> String {
    let n = job.sizes();
    joined(
        [n.sources, n.signals, n.faults, n.classes, n.tests, n.blocks],
        " ",
    )
}

/// The rows of a text as words, and how many there are.
fn words_of_rows(rows: &str, sources: usize) -> (u32, Vec<u64>) {
    let rows: Vec<&str> = rows.lines().collect();
    let mut words = vec![0; rows.len().div_ceil(64) * sources];
    let bits = rows.iter().enumerate().flat_map(|(row, bits)| {
        let placed = bits.bytes().enumerate();
        placed.map(move |(source, bit)| (row, source, u64::from(bit == b'1')))
    });
    for (row, source, bit) in bits {
        words[row / 64 * sources + source] |= bit << (row % 64);
    }
    (rows.len() as u32, words)
}

/// Takes tests by a call of this name.
fn take(name: &str, call: &mut Call) -> Result<String, Error> {
    let job = call.job.take().expect("a job");
    match name {
        "set_text" => call.run(|| job.set_text(call.text(0)))?,
        "set_rows" => {
            let rows = &call.texts[call.words[0]];
            let (count, words) = words_of_rows(rows, job.sizes().sources as usize);
            call.run(|| job.set_words(count, &words))?;
        }
        _ => {
            let (count, words) = (call.number(0), call.given_words(1));
            match name {
                "set_words" => call.run(|| job.set_words(count, &words))?,
                _ => call.run(|| job.next_words(count, &words))?,
            }
        }
    }
    Ok(String::new())
}

/// What a call that simulates for a list on one block returns.
fn on_a_block(name: &str, call: &Call) -> Result<String, Error> {
    let (job, block) = (call.job(), call.number(0));
    let words = match name {
        "observed" => {
            let signals = call.numbers(1, job.sizes().signals);
            call.run(|| job.observed(block, &signals))?
        }
        "lanes" => {
            let classes = call.classes(1);
            call.run(|| job.lanes(block, &classes))?
        }
        "count" => {
            let (most, classes) = (call.number(1), call.classes(3));
            let mut counts = vec![call.number(2); classes.len()];
            call.run(|| job.count(block, &classes, most, &mut counts))?;
            return Ok(joined(counts, " "));
        }
        other => panic!("no call {other}"),
    };
    Ok(joined(words.iter().map(|word| format!("{word:x}")), " "))
}

/// What a call that simulates returns.
fn simulated(name: &str, call: &Call) -> Result<String, Error> {
    let job = call.job();
    Ok(match name {
        "simulate" => {
            let classes = call.classes(0);
            tests_of(call.run(|| job.simulate(&classes))?)
        }
        "detections" => {
            let (most, classes) = (call.number(0), call.classes(1));
            joined(call.run(|| job.detections(&classes, most))?, " ")
        }
        "detecting" => {
            let (class, block) = (call.number(0), call.number(1));
            format!("{:x}", call.run(|| job.detecting(class, block))?)
        }
        "report" => {
            let lines = match call.words[0] {
                "none" => Lines::None,
                "all" => Lines::All,
                "undetected" => Lines::Undetected,
                other => panic!("no lines {other}"),
            };
            let classes = call.words[1] == "true";
            call.run(|| job.report(lines, classes))?.replace('\n', "/")
        }
        "coverage" => {
            let (detected, faults) = job.coverage()?;
            format!("{detected} of {faults}")
        }
        _ => on_a_block(name, call)?,
    })
}

fn number_or_none(number: Option<u32>) -> String {
    number.map_or("-".to_string(), |it| it.to_string())
}

fn fan_ins(job: &Job) -> String {
    let all = job.fan_ins_of();
    let by_signal: Vec<u32> = (0..job.sizes().signals)
        .flat_map(|signal| all.of(signal).to_vec())
        .collect();
    assert_eq!(by_signal, all.pins);
    format!("{}, {}", joined(all.starts, " "), joined(all.pins, " "))
}

fn fan_outs(job: &Job) -> String {
    let all = job.fan_outs_of();
    let pins = (0..job.sizes().signals).flat_map(|signal| all.of(signal));
    let pins = pins.map(|it| format!(", {} {}", it.gate, it.pin));
    format!("{}{}", joined(&all.starts, " "), pins.collect::<String>())
}

fn site_text(site: Site) -> String {
    joined([site.kind, site.at, site.pin, site.stuck], " ")
}

/// What a call about the circuit in arrays returns.
fn in_arrays(name: &str, call: &Call) -> Result<String, Error> {
    let job = call.job();
    Ok(match name {
        "signal_named" => number_or_none(job.signal_named(call.words[0])),
        "kinds_of" => joined(job.kinds_of().into_iter().map(|it| it as u32), " "),
        "levels_of" => joined(job.levels_of(), " "),
        "fan_ins_of" => fan_ins(job),
        "fan_outs_of" => fan_outs(job),
        "sites_of" => joined(job.sites_of().into_iter().map(site_text), ", "),
        "fault_at" => {
            let (kind, at) = (call.number(0), call.number(1));
            let (pin, stuck) = (call.number(2), call.number(3));
            number_or_none(job.fault_at(Site {
                kind,
                at,
                pin,
                stuck,
            }))
        }
        "values" => {
            let (block, words) = (call.number(0), job.values(call.number(0))?);
            let lanes = lanes_of(job, block as usize);
            joined(
                words.into_iter().map(|word| format!("{:x}", word & lanes)),
                " ",
            )
        }
        _ => simulated(name, call)?,
    })
}

/// What a call about the circuit, or about words, returns.
fn read_off(name: &str, call: &Call) -> Result<String, Error> {
    let job = call.job();
    Ok(match name {
        "sizes" => sizes(job),
        "names" => {
            let names: Result<Vec<_>, _> =
                (0..job.sizes().signals).map(|it| job.name_of(it)).collect();
            names?.join(" ")
        }
        "sources" => sources(job)?,
        "name_of" => job.name_of(call.number(0))?,
        "fault_name" => call.run(|| job.fault_name(call.number(0)))?,
        "fault_names" => {
            let all = 0..job.sizes().faults;
            let names: Result<Vec<_>, _> = all.map(|it| job.fault_name(it)).collect();
            names?.join(", ")
        }
        "classes_of" => joined(job.classes_of(), " "),
        "stems_of" => joined(job.stems_of(), " "),
        "observers" => joined(job.observers(), " "),
        "word" => {
            let (block, signal) = (call.number(0), call.number(1));
            let word = call.run(|| job.word(block, signal))?;
            format!("{:x}", word & lanes_of(job, block as usize))
        }
        "responses" => responses(job),
        _ => in_arrays(name, call)?,
    })
}

/// What a call without a job returns, or nothing if it is no such call.
fn of_no_job(name: &str, call: &Call) -> Option<Result<String, Error>> {
    Some(Ok(match name {
        "version" => version().to_string(),
        "error" => {
            let (kind, place) = (call.number(0), u64::from(call.number(1)));
            Error::Refused(Fault { kind, place }).to_string()
        }
        "status" => match call.number(0) {
            2 => Error::Memory.to_string(),
            4 => Error::OutOfRange.to_string(),
            5 => Error::Shared.to_string(),
            other => panic!("no status {other}"),
        },
        "firsts" => {
            let (model, bench, tests) = (call.model(), call.text(1), call.text(2));
            return Some(call.run(|| firsts(model, bench, tests)).map(tests_of));
        }
        _ => return None,
    }))
}

/// What a call of a name returns. A new job goes to the handle.
fn result_of<'a>(
    name: &str,
    handle: &str,
    mut call: Call<'a>,
    jobs: &'a mut HashMap<String, Job>,
) -> Result<String, Error> {
    if let Some(result) = of_no_job(name, &call) {
        return result;
    }
    match name {
        "read" => {
            let job = call.run(|| Job::read(call.model(), call.text(1)))?;
            jobs.insert(handle.to_string(), job);
        }
        "share" => {
            let shared = jobs.get_mut(call.words[0]).expect("a job");
            let job = call.run(|| shared.share())?;
            jobs.insert(handle.to_string(), job);
        }
        "free" => drop(jobs.remove(handle)),
        "set_text" | "set_words" | "next_words" | "set_rows" => {
            call.job = jobs.get_mut(handle);
            return take(name, &mut call);
        }
        _ => {
            call.job = jobs.get_mut(handle);
            return read_off(name, &call);
        }
    }
    Ok(String::new())
}

/// Runs the call of a line. Returns its result, and that which it must have.
fn run<'a>(
    line: &'a str,
    jobs: &mut HashMap<String, Job>,
    texts: &HashMap<String, String>,
) -> (String, &'a str) {
    let (call, wanted) = line.split_once(" =").unwrap_or((line, ""));
    let mut words: Vec<&str> = call.split(' ').collect();
    let is_refused = words[0] == "refused";
    words.drain(..usize::from(is_refused));
    let (handle, name) = (words[0], words[1]);
    let words = words.split_off(2);
    let call = Call {
        job: None,
        words,
        texts,
        is_refused,
    };
    let result = match result_of(name, handle, call, jobs) {
        Ok(result) => result,
        Err(Error::Memory) => "memory".to_string(),
        Err(Error::Refused(fault)) => format!("refused {} {}", fault.kind, fault.place),
        Err(Error::OutOfRange) => "range".to_string(),
        Err(Error::Shared) => "shared".to_string(),
    };
    (result, wanted.trim_start())
}

#[test]
fn calls_have_the_results_of_the_table() {
    let table = include_str!("../../cases.txt").lines();
    let (mut texts, mut jobs) = (HashMap::new(), HashMap::new());
    let (mut text, mut calls, mut failed) = (None, 0, Vec::new());
    for line in table.filter(|it| !it.is_empty() && !it.starts_with('#')) {
        if let Some(name) = line.strip_prefix("-- ") {
            text = Some(name.to_string());
            texts.insert(name.to_string(), String::new());
        } else if line.starts_with("== ") {
            text = None;
            jobs.clear();
        } else if let Some(name) = &text {
            *texts.get_mut(name).expect("a text") += &format!("{line}\n");
        } else {
            calls += 1;
            let (result, wanted) = run(line, &mut jobs, &texts);
            if result != wanted {
                failed.push(format!("{line}\n    is {result}"));
            }
        }
    }
    println!("{calls} calls, {} failed", failed.len());
    assert!(calls > 0 && failed.is_empty(), "{}", failed.join("\n"));
}
