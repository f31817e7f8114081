//! Writes generated inputs, a file for each, into a folder for a fuzzer to begin with.

use std::path::Path;
use std::{env, fs, io};

use expected::generated;
use reference::generate::Random;

const SEEDS: u64 = 6_000;

fn main() -> io::Result<()> {
    let folder = env::args().nth(1).expect("a folder");
    fs::create_dir_all(&folder)?;
    for seed in 0..SEEDS {
        let input = generated(&mut Random::new(seed));
        fs::write(Path::new(&folder).join(format!("seed-{seed}")), input)?;
    }
    Ok(())
}
