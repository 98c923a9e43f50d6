//! The same counter under `std::sync::Mutex`, with the same calls and the same lines of output.
use std::sync::Mutex;
use std::sync::atomic::{AtomicU64, Ordering::SeqCst};
use std::thread;
use std::time::{Duration, Instant};

struct Counter {
    sum: u64,
}

fn apply(counter: &Mutex<Counter>, amount: u64) -> u64 {
    let mut held = counter.lock().unwrap();
    held.sum = held.sum.wrapping_add(amount);
    held.sum
}

struct Race {
    threads: u64,
    calls: u64,
    window: u64,
    opening: Instant,
    arrived: AtomicU64,
}

impl Race {
    fn line_up(&self) {
        thread::sleep(Duration::from_millis(100));
        self.arrived.fetch_add(1, SeqCst);
        while self.arrived.load(SeqCst) < self.threads {
            thread::yield_now();
        }
    }
}

// The windows in which this thread made calls, how many it had made before, and when it made the first in each.
fn one(counter: &Mutex<Counter>, race: &Race) -> Vec<(u64, u64, u128)> {
    let mut marks = Vec::with_capacity(4096);
    race.line_up();
    let mut window = 0;
    for before in 0..race.calls {
        let sum = apply(counter, std::hint::black_box(1));
        if sum.wrapping_sub(window) >= race.window {
            window = sum - sum % race.window;
            marks.push((window, before, race.opening.elapsed().as_nanos()));
        }
    }
    marks
}

fn main() {
    let words: Vec<u64> = std::env::args().skip(1).map(|word| word.parse().unwrap()).collect();
    let race = Race {
        threads: words[0],
        calls: words[1],
        window: words[2],
        opening: Instant::now(),
        arrived: AtomicU64::new(0),
    };
    let counter = Mutex::new(Counter { sum: 0 });
    let all: Vec<_> = thread::scope(|scope| {
        let others: Vec<_> = (1..race.threads).map(|_| scope.spawn(|| one(&counter, &race))).collect();
        let mut all = vec![one(&counter, &race)];
        all.extend(others.into_iter().map(|other| other.join().unwrap()));
        all
    });
    for (thread, marks) in all.iter().enumerate() {
        for (window, before, nanos) in marks {
            println!("{thread} {} {before} {nanos}", window / race.window);
        }
    }
    println!("{}", counter.into_inner().unwrap().sum);
}
