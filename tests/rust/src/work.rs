//! Long loops over the machine's cores. Settings, from the environment:
//!
//! - PLATE_FULL=1: all 2^32 patterns where a test would take a sample
//! - PLATE_THREADS=n: threads to use; without it, all cores

use std::ops::Range;
use std::sync::atomic::{AtomicU64, Ordering};
use std::thread;

pub fn full() -> bool {
    std::env::var_os("PLATE_FULL").is_some_and(|value| value == "1")
}

fn threads() -> u64 {
    match std::env::var("PLATE_THREADS") {
        Ok(count) => count.parse().expect("PLATE_THREADS is a number"),
        Err(_) => thread::available_parallelism().map_or(1, |count| count.get() as u64),
    }
}

/// Does the work for every part of 0..count, and adds up what the parts give.
/// In a full run it tells how far it is (seen with --nocapture).
pub fn over(name: &str, count: u64, work: impl Fn(Range<u64>) -> u64 + Sync) -> u64 {
    let part = (count / 256).max(1);
    let next = AtomicU64::new(0);
    let sum = AtomicU64::new(0);
    thread::scope(|scope| {
        for _ in 0..threads() {
            scope.spawn(|| loop {
                let start = next.fetch_add(part, Ordering::Relaxed);
                if start >= count {
                    break;
                }
                sum.fetch_add(work(start..count.min(start + part)), Ordering::Relaxed);
                if full() {
                    println!("{name}: {start} of {count}");
                }
            });
        }
    });
    sum.into_inner()
}
