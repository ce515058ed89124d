//! The list of a map, rounded up, from a file to a file:
//! cargo run --example list -- ../samples/example.plt example.cut

use std::{env, fs, process::exit};

fn main() -> std::io::Result<()> {
    let paths: Vec<String> = env::args().collect();
    let map = fs::read(&paths[1])?;
    let mut buffer = [0; plate::LONGEST_LIST];
    let list = plate::list(plate::Rounding::Up, &map, &mut buffer)
        .unwrap_or_else(|refusal| { eprintln!("{}: {refusal}", paths[1]); exit(1) });
    fs::write(&paths[2], list)
}
