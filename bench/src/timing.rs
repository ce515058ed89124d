//! Best of many rounds, in which the sides take turns: a slow spell of the
//! machine meets all of them.

use std::time::{Duration, Instant};

pub const ROUNDS: u32 = 50;
const ROUND: Duration = Duration::from_millis(2);

/// One of the programs that are compared: its name, and a pass of many calls.
pub type Side<'a> = (&'static str, Box<dyn FnMut() + 'a>);

pub fn side<'a>(name: &'static str, pass: impl FnMut() + 'a) -> Side<'a> {
    (name, Box::new(pass))
}

fn time(passes: u32, pass: &mut dyn FnMut()) -> Duration {
    let start = Instant::now();
    for _ in 0..passes {
        pass();
    }
    start.elapsed()
}

/// As many passes as fill a round; this also warms up.
fn fill(pass: &mut dyn FnMut()) -> u32 {
    let mut passes = 1;
    while time(passes, pass) < ROUND {
        passes *= 2;
    }
    passes
}

/// Times the sides on passes of so many calls, and prints a line: the first
/// side's nanoseconds a call, then each other's, and first / other.
pub fn compare(name: &str, count: usize, mut sides: Vec<Side>) {
    let passes: Vec<u32> = sides.iter_mut().map(|(_, pass)| fill(pass)).collect();
    let mut least = vec![f64::INFINITY; sides.len()];
    for _ in 0..ROUNDS {
        for (k, (_, pass)) in sides.iter_mut().enumerate() {
            let nanoseconds = time(passes[k], pass).as_nanos() as f64;
            least[k] = least[k].min(nanoseconds / (passes[k] as f64 * count as f64));
        }
    }
    print!("  {name:<26} {} {:9.2}", sides[0].0, least[0]);
    for k in 1..sides.len() {
        print!("   {} {:9.2}  ratio {:6.2}", sides[k].0, least[k], least[0] / least[k]);
    }
    println!();
}
