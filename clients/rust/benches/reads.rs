//! How long a read takes, in microseconds: of 100 bytes, as `bench/embed/calls.c` does it, and of 1 MiB. `bench/embed/compare` runs it.

use elephant::{Error, Store};
use std::time::Instant;

const FILES: usize = 100;
const SHORT_READS: u32 = 100_000;
const READS: u32 = 200;
const ROUNDS: usize = 5;

fn filled(paths: &[String], short: &[u8], long: &[u8]) -> Result<Store, Error> {
    let store = Store::new()?;
    store.mkdir("/d")?;
    for path in paths {
        store.save(path, short)?;
    }
    store.save("/long", long)?;
    Ok(store)
}

fn micros(store: &Store, paths: &[String], count: u32) -> Result<f64, Error> {
    let start = Instant::now();
    for path in paths.iter().cycle().take(count as usize) {
        store.read(path)?;
    }
    Ok(start.elapsed().as_secs_f64() * 1e6 / f64::from(count))
}

fn least(store: &Store, paths: &[String], count: u32) -> Result<f64, Error> {
    let rounds: Vec<f64> = (0..ROUNDS).map(|_| micros(store, paths, count)).collect::<Result<_, _>>()?;
    Ok(rounds.into_iter().fold(f64::INFINITY, f64::min))
}

fn main() -> Result<(), Error> {
    let paths: Vec<String> = (0..FILES).map(|at| format!("/d/f{at:02}")).collect();
    let (short, long) = ([7; 100], vec![9; 1 << 20]);
    let store = filled(&paths, &short, &long)?;
    assert!(store.read(&paths[1])? == short && store.read("/long")? == long);
    println!("rust_short_read {:.4}", least(&store, &paths, SHORT_READS)?);
    println!("rust_read {:.4}", least(&store, &["/long".to_owned()], READS)?);
    Ok(())
}
