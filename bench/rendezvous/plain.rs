//! What rendezvous is measured beside: exchanges of two threads by a `sync_channel` of no places
//! each way, and by a map under a `Mutex` with a `Condvar` for each thread; and of four such pairs.
//! Prints a name, a count and nanoseconds a line.
use std::collections::HashMap;
use std::sync::mpsc::sync_channel;
use std::sync::{Condvar, Mutex};
use std::thread;
use std::time::Instant;

const TIMES: u64 = 200_000;

fn say(name: &str, pairs: u64, begun: Instant) {
    println!("{name} {} {}", pairs * TIMES, begun.elapsed().as_nanos());
}

fn by_channels(name: &str, pairs: u64) {
    let begun = Instant::now();
    thread::scope(|scope| {
        for _ in 0..pairs {
            let (to, from) = sync_channel::<u64>(0);
            let (back, answers) = sync_channel::<u64>(0);
            scope.spawn(move || {
                for time in 0..TIMES {
                    to.send(time).unwrap();
                    assert_eq!(answers.recv().unwrap(), time);
                }
            });
            scope.spawn(move || {
                for time in 0..TIMES {
                    assert_eq!(from.recv().unwrap(), time);
                    back.send(time).unwrap();
                }
            });
        }
    });
    say(name, pairs, begun);
}

/// Who waits: which thread, its value, and the value that it gets.
#[derive(Default)]
struct Places {
    waiting: HashMap<u64, usize>,
    given: Vec<u64>,
    got: Vec<Option<u64>>,
}

struct Space {
    places: Mutex<Places>,
    woken: Vec<Condvar>,
}

impl Space {
    fn rendezvous(&self, me: usize, tag: u64, value: u64) -> u64 {
        let mut places = self.places.lock().unwrap();
        if let Some(other) = places.waiting.remove(&tag) {
            places.got[other] = Some(value);
            let answer = places.given[other];
            drop(places);
            self.woken[other].notify_one();
            return answer;
        }
        places.waiting.insert(tag, me);
        places.given[me] = value;
        loop {
            if let Some(answer) = places.got[me].take() {
                return answer;
            }
            places = self.woken[me].wait(places).unwrap();
        }
    }
}

fn by_map(name: &str, pairs: u64) {
    let threads = 2 * pairs as usize;
    let space = Space {
        places: Mutex::new(Places {
            waiting: HashMap::new(),
            given: vec![0; threads],
            got: vec![None; threads],
        }),
        woken: (0..threads).map(|_| Condvar::new()).collect(),
    };
    let space = &space;
    let begun = Instant::now();
    thread::scope(|scope| {
        for me in 0..threads {
            scope.spawn(move || {
                for time in 0..TIMES {
                    assert_eq!(space.rendezvous(me, me as u64 / 2, time), time);
                }
            });
        }
    });
    say(name, pairs, begun);
}

fn main() {
    by_channels("two_channels", 1);
    by_map("two_map", 1);
    by_channels("eight_channels", 4);
    by_map("eight_map", 4);
}
