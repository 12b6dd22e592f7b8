//! Tests from outside: every public call through the archives `libprobe.a` and `libcab.a`, compared with a plain answer that shares nothing with the proved
//! code. Every word of every lent buffer is compared, with guards around it.
//!
//!     outside [SEED [CASES]]     prints the seed, a line for each failure, and at last 'N passed, M failed'
mod bits;
mod blocks;
mod cells;
mod df;
mod levels;
mod link;
mod listing;
mod lists;
mod lookups;
mod model;
mod moves;
mod run;
mod sets;
mod text;
mod turns;

use run::Run;

fn main() {
    let args: Vec<u64> = std::env::args().skip(1).map(|a| a.parse().expect("a number")).collect();
    let seed = args.first().copied().unwrap_or(20261115);
    let cases = args.get(1).copied().unwrap_or(2000);
    println!("seed {seed}, {cases} random cases a group");
    let mut run = Run::new(seed, cases);
    cells::all(&mut run);
    lists::all(&mut run);
    lookups::all(&mut run);
    sets::all(&mut run);
    moves::all(&mut run);
    turns::all(&mut run);
    blocks::all(&mut run);
    text::all(&mut run);
    df::all(&mut run);
    listing::all(&mut run);
    bits::all(&mut run);
    println!("{} passed, {} failed", run.passed, run.failed);
    if run.failed > 0 || run.passed == 0 {
        std::process::exit(1);
    }
}
