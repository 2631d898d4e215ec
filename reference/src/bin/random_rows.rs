//! `random_rows FOLDER`: writes the rows made at random of the test program `rows` to
//! `random.bin` in a folder, and prints the part of its `stdout` that they make it write.
//! Standard error gets how many rows there are of each sort.

use reference::rows::rows;
use std::path::PathBuf;
use std::process::exit;
use std::{env, fs};

const SEED: u64 = 1;
const FILE: &str = "random.bin";

fn main() -> std::io::Result<()> {
    let Some(folder) = env::args().nth(1).map(PathBuf::from) else {
        eprintln!("random_rows FOLDER");
        exit(2);
    };
    let made = rows(SEED);
    fs::write(folder.join(FILE), &made.file)?;
    print!("{FILE}:\n{}", made.written);
    for (sort, count) in made.counts {
        eprintln!("{sort}: {count}");
    }
    Ok(())
}
