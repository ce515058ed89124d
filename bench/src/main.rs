//! Times the static library beside other programs for the same answers:
//!
//!     cargo run --release                        all four parts
//!     cargo run --release -- list                one of raw, binary32, binary64, list
//!     cargo run --release --features mpfr        libmpfr in binary32 and binary64
//!     cargo run --release --features softfloat   Berkeley SoftFloat in them
//!     cargo run --release --features before      an earlier build of the library
//!
//! All times are of one core, nanoseconds a call, the best of many rounds. Every
//! answer goes through black_box, so no call is left out. Before it is timed, a
//! program for the same answers is compared with the library on what is timed.

#[cfg(feature = "before")]
mod before;
mod formats;
mod list;
#[cfg(feature = "mpfr")]
mod mpfr;
mod raw;
#[cfg(feature = "softfloat")]
mod softfloat;
mod timing;

const PARTS: [(&str, fn()); 4] = [
    ("raw", raw::run),
    ("binary32", formats::binary32),
    ("binary64", formats::binary64),
    ("list", list::run),
];

fn main() {
    let parts: Vec<String> = std::env::args().skip(1).collect();
    if let Some(unknown) = parts.iter().find(|part| PARTS.iter().all(|(name, _)| part != name)) {
        eprintln!("unknown part {unknown}: raw, binary32, binary64 or list");
        std::process::exit(2);
    }
    if cfg!(not(feature = "library")) {
        println!("WITHOUT THE LIBRARY: \"unit\" is the Rust reference of tests/rust.\n");
    }
    for (name, run) in PARTS {
        if parts.is_empty() || parts.iter().any(|part| part == name) {
            run();
        }
    }
}
