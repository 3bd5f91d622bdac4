//! A random test generator: blocks of 64 random tests, of which it keeps those that are the first
//! to detect a class, until 20 blocks in a row bring none.
//!
//! usage: generator BENCH [SEED] > TESTS
//!
//! The tests go to standard output, and a line about them to standard error.

use faultsim::{Error, Job, Model};
use std::collections::{BTreeSet, HashSet};

/// Random words (Vigna, xorshift64*).
struct Random(u64);

impl Random {
    fn next(&mut self) -> u64 {
        self.0 ^= self.0 >> 12;
        self.0 ^= self.0 << 25;
        self.0 ^= self.0 >> 27;
        self.0.wrapping_mul(2_685_821_657_736_338_717)
    }
}

/// The tests that are kept, as rows of text, and the classes that no test detects.
fn generate(job: &mut Job, seed: u64) -> Result<(Vec<String>, Vec<u32>), Error> {
    let (mut random, mut kept, mut idle) = (Random(seed), Vec::new(), 0);
    let mut left: Vec<u32> = (0..job.sizes().classes).collect();
    while idle < 20 && !left.is_empty() {
        let words: Vec<u64> = (0..job.sizes().sources).map(|_| random.next()).collect();
        job.set_words(64, &words)?;
        let firsts = job.simulate(&left)?;
        let news: BTreeSet<u32> = firsts.iter().flatten().copied().collect();
        kept.extend(news.iter().map(|lane| -> String {
            words
                .iter()
                .map(|word| if word >> lane & 1 == 1 { '1' } else { '0' })
                .collect()
        }));
        let mut found = firsts.iter().map(Option::is_some);
        left.retain(|_| found.next() == Some(false));
        idle = if news.is_empty() { idle + 1 } else { 0 };
    }
    Ok((kept, left))
}

fn main() -> Result<(), Box<dyn std::error::Error>> {
    let words: Vec<String> = std::env::args().collect();
    let path = words.get(1).ok_or("usage: generator BENCH [SEED]")?;
    let mut job = Job::read(Model::StuckAt, &std::fs::read(path)?)?;
    let seed = words.get(2).map_or(Ok(1), |it| it.parse())?;
    let (kept, left) = generate(&mut job, seed)?;
    let left: HashSet<u32> = left.into_iter().collect();
    let of = job.classes_of();
    let found = of.iter().filter(|class| !left.contains(class)).count();
    for row in &kept {
        println!("{row}");
    }
    eprintln!("{} tests, {found} of {}", kept.len(), of.len());
    Ok(())
}
