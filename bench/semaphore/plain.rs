//! The same work in plain Rust: a lock and an unlock of a `Mutex`, a semaphore of a `Mutex` with a
//! `Condvar`, and one unit that four threads pass round by four of those.
use std::hint::black_box;
use std::sync::{Condvar, Mutex};
use std::thread;
use std::time::Instant;

const PAIRS: u64 = 2_000_000;

const ROUNDS: u64 = 100_000;

struct Semaphore {
    value: Mutex<u32>,
    more: Condvar,
}

impl Semaphore {
    fn new(value: u32) -> Semaphore {
        Semaphore {
            value: Mutex::new(value),
            more: Condvar::new(),
        }
    }

    fn acquire(&self) {
        let mut value = self.value.lock().unwrap();
        while *value == 0 {
            value = self.more.wait(value).unwrap();
        }
        *value -= 1;
    }

    fn release(&self) {
        *self.value.lock().unwrap() += 1;
        self.more.notify_one();
    }
}

fn main() {
    let lock = Mutex::new(0u64);
    let begun = Instant::now();
    for _ in 0..PAIRS {
        let mut held = lock.lock().unwrap();
        *held = black_box(*held).wrapping_add(1);
    }
    println!("mutex {PAIRS} {}", begun.elapsed().as_nanos());

    let semaphore = Semaphore::new(1);
    let begun = Instant::now();
    for _ in 0..PAIRS {
        black_box(&semaphore).acquire();
        black_box(&semaphore).release();
    }
    println!("condvar_pairs {PAIRS} {}", begun.elapsed().as_nanos());

    let ring: Vec<Semaphore> = (0..4).map(|place| Semaphore::new((place == 0) as u32)).collect();
    let begun = Instant::now();
    thread::scope(|scope| {
        for place in 0..4 {
            let ring = &ring;
            scope.spawn(move || {
                for _ in 0..ROUNDS {
                    ring[place].acquire();
                    ring[(place + 1) % 4].release();
                }
            });
        }
    });
    println!("condvar_rounds {ROUNDS} {}", begun.elapsed().as_nanos());
}
