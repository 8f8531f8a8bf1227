//! Two calls timed in turn, so that both meet the same machine.
use std::hint::black_box;
use std::time::{Duration, Instant};

/// How many batches of each are taken.
pub const BATCHES: usize = 15;

/// About how long a batch is to last.
const BATCH: Duration = Duration::from_millis(8);

pub type Answer = Result<usize, u8>;

/// A call that makes something of the given bytes in lent places.
pub type Call<T> = fn(&[u8], &mut [T]) -> Answer;

/// Microseconds for one call of each.
pub struct Times {
    pub proved: f64,
    pub port: f64,
}

/// What a call answers, and what it leaves in so many lent places.
fn made<T: Clone + Default>(call: Call<T>, given: &[u8], room: usize) -> (Answer, Vec<T>) {
    let mut lent = vec![T::default(); room];
    let answer = call(given, &mut lent);
    (answer, lent)
}

/// Microseconds for each of so many calls.
fn batch<T>(call: Call<T>, calls: u32, given: &[u8], lent: &mut [T]) -> f64 {
    let start = Instant::now();
    for _ in 0..calls {
        let answer = call(black_box(given), black_box(&mut *lent));
        let _ = black_box(answer);
    }
    start.elapsed().as_secs_f64() * 1e6 / f64::from(calls)
}

/// How many calls fill a batch; the first ones also warm up.
fn calls_for<T>(call: Call<T>, given: &[u8], lent: &mut [T]) -> u32 {
    let mut calls = 1;
    loop {
        let each = batch(call, calls, given, lent);
        if each * f64::from(calls) >= BATCH.as_secs_f64() * 1e6 / 2.0 {
            return calls;
        }
        calls *= 2;
    }
}

fn median(mut times: Vec<f64>) -> f64 {
    times.sort_by(f64::total_cmp);
    times[times.len() / 2]
}

/// A proved call beside its port; None where they do not make the same of what is given.
pub fn side_by_side<T: Clone + Default + PartialEq>(
    both: [Call<T>; 2],
    given: &[u8],
    room: usize,
) -> Option<Times> {
    let [proved, port] = both;
    if made(proved, given, room) != made(port, given, room) {
        return None;
    }
    let lent = &mut vec![T::default(); room];
    let calls = both.map(|call| calls_for(call, given, lent));
    let (mut proved_times, mut port_times) = (Vec::new(), Vec::new());
    for _ in 0..BATCHES {
        proved_times.push(batch(proved, calls[0], given, lent));
        port_times.push(batch(port, calls[1], given, lent));
    }
    Some(Times {
        proved: median(proved_times),
        port: median(port_times),
    })
}
