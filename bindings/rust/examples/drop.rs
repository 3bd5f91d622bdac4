//! A loop with fault dropping under each fault model: simulates tests block by block, each block
//! only for the classes that no earlier test detects, and prints what `faultsim run --list` prints.
//!
//! usage: drop BENCH TESTS MODEL
//!
//! TESTS has nothing but a line of 0s and 1s for each test. MODEL is stuck, transition or
//! transition-pairs.

use faultsim::{Error, Job, Model};

/// The words of the rows of a block.
fn words_of(rows: &[&str], sources: usize) -> Vec<u64> {
    let mut words = vec![0; sources];
    for (test, row) in rows.iter().enumerate() {
        for (word, bit) in words.iter_mut().zip(row.bytes()) {
            *word |= u64::from(bit & 1) << test;
        }
    }
    words
}

/// The first test of each class. Under [`Model::Transition`] each block follows the last test: with
/// it, 63 tests are a block of 64.
fn first_tests(job: &mut Job, rows: &[&str], follow: bool) -> Result<Vec<Option<u32>>, Error> {
    let sizes = job.sizes();
    let mut firsts = vec![None; sizes.classes as usize];
    let mut left: Vec<u32> = (0..sizes.classes).collect();
    let mut before = 0;
    for block in rows.chunks(if follow { 63 } else { 64 }) {
        let (count, words) = (block.len() as u32, words_of(block, sizes.sources as usize));
        if follow {
            job.next_words(count, &words)?;
        } else {
            job.set_words(count, &words)?;
        }
        let found = job.simulate(&left)?;
        for (class, first) in left.iter().zip(&found) {
            firsts[*class as usize] = first.map(|it| before + it);
        }
        let mut found = found.iter();
        left.retain(|_| found.next() == Some(&None));
        before += job.sizes().tests - u32::from(follow);
    }
    Ok(firsts)
}

fn main() -> Result<(), Box<dyn std::error::Error>> {
    let words: Vec<String> = std::env::args().collect();
    let [_, bench, tests, model] = words.as_slice() else {
        return Err("usage: drop BENCH TESTS MODEL".into());
    };
    let model = match model.as_str() {
        "stuck" => Model::StuckAt,
        "transition" => Model::Transition,
        "transition-pairs" => Model::TransitionPairs,
        other => return Err(format!("there is no model {other}").into()),
    };
    let mut job = Job::read(model, &std::fs::read(bench)?)?;
    let tests = std::fs::read_to_string(tests)?;
    let rows: Vec<&str> = tests.split_whitespace().collect();
    let firsts = first_tests(&mut job, &rows, model == Model::Transition)?;
    let (of, mut detected) = (job.classes_of(), 0);
    for (fault, class) in (0..).zip(&of) {
        match firsts[*class as usize] {
            Some(first) => println!("{} {first}", job.fault_name(fault)?),
            None => println!("{} none", job.fault_name(fault)?),
        }
        detected += usize::from(firsts[*class as usize].is_some());
    }
    let (all, hundredths) = (of.len(), 10_000 * detected / of.len());
    let (whole, part) = (hundredths / 100, hundredths % 100);
    println!("{detected} of {all} ({whole}.{part:02}%)");
    Ok(())
}
