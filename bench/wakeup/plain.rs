//! What the processes are measured beside: round trips of two threads that wake each other by
//! `park`, by a `Mutex` with a `Condvar`, and by two pipes of the system; and one uncontended lock and
//! unlock of a `Mutex`. Prints a name, a count and nanoseconds a line.
use std::hint::black_box;
use std::io::{self, Read, Write};
use std::sync::atomic::{AtomicU64, Ordering::SeqCst};
use std::sync::{Condvar, Mutex};
use std::thread;
use std::time::Instant;

const TRIPS: u64 = 200_000;
const CALLS: u64 = 20_000_000;

fn say(name: &str, count: u64, begun: Instant) {
    println!("{name} {count} {}", begun.elapsed().as_nanos());
}

fn by_park() {
    let there = AtomicU64::new(0);
    let back = AtomicU64::new(0);
    let main = thread::current();
    let begun = Instant::now();
    thread::scope(|scope| {
        let other = scope.spawn(|| {
            for trip in 0..TRIPS {
                while there.load(SeqCst) <= trip {
                    thread::park();
                }
                back.store(trip + 1, SeqCst);
                main.unpark();
            }
        });
        let other = other.thread();
        for trip in 0..TRIPS {
            there.store(trip + 1, SeqCst);
            other.unpark();
            while back.load(SeqCst) <= trip {
                thread::park();
            }
        }
    });
    say("park", TRIPS, begun);
}

fn by_condvar() {
    let turn = Mutex::new((0u64, 0u64));
    let (goes, comes) = (Condvar::new(), Condvar::new());
    let begun = Instant::now();
    thread::scope(|scope| {
        scope.spawn(|| {
            for trip in 0..TRIPS {
                let mut at = turn.lock().unwrap();
                while at.0 <= trip {
                    at = goes.wait(at).unwrap();
                }
                at.1 = trip + 1;
                comes.notify_one();
            }
        });
        for trip in 0..TRIPS {
            let mut at = turn.lock().unwrap();
            at.0 = trip + 1;
            goes.notify_one();
            while at.1 <= trip {
                at = comes.wait(at).unwrap();
            }
        }
    });
    say("condvar", TRIPS, begun);
}

fn by_pipes() -> io::Result<()> {
    let (mut there, mut to) = io::pipe()?;
    let (mut back, mut from) = io::pipe()?;
    let begun = Instant::now();
    thread::scope(|scope| -> io::Result<()> {
        scope.spawn(move || -> io::Result<()> {
            let mut byte = [0u8];
            for _ in 0..TRIPS {
                there.read_exact(&mut byte)?;
                from.write_all(&byte)?;
            }
            Ok(())
        });
        let mut byte = [0u8];
        for _ in 0..TRIPS {
            to.write_all(&byte)?;
            back.read_exact(&mut byte)?;
        }
        Ok(())
    })?;
    say("pipes", TRIPS, begun);
    Ok(())
}

fn by_lock() {
    let sum = Mutex::new(0u64);
    let begun = Instant::now();
    for _ in 0..CALLS {
        *black_box(&sum).lock().unwrap() += 1;
    }
    say("mutex", *sum.lock().unwrap(), begun);
}

fn main() -> io::Result<()> {
    by_park();
    by_condvar();
    by_pipes()?;
    by_lock();
    Ok(())
}
