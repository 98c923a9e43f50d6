//! The same over `std::sync::mpsc::sync_channel`, and over crossbeam's bounded channel where it is
//! there, with the same words and the same line of output. A `Receiver` of std has one thread at a
//! time, so several take turns by a `Mutex`.
use std::sync::atomic::{AtomicU64, Ordering::SeqCst};
use std::sync::Mutex;
use std::sync::mpsc::{SyncSender, sync_channel};
use std::thread;
use std::time::{Duration, Instant};

trait Out: Send {
    fn put(&self, number: u64);
}

trait In: Send {
    fn next(&self) -> Option<u64>;
}

impl Out for SyncSender<u64> {
    fn put(&self, number: u64) {
        self.send(number).unwrap();
    }
}

struct One(std::sync::mpsc::Receiver<u64>);

impl In for One {
    fn next(&self) -> Option<u64> {
        self.0.recv().ok()
    }
}

struct Shared<'r>(&'r Mutex<std::sync::mpsc::Receiver<u64>>);

impl In for Shared<'_> {
    fn next(&self) -> Option<u64> {
        self.0.lock().unwrap().recv().ok()
    }
}

#[cfg(crossbeam)]
impl Out for crossbeam_channel::Sender<u64> {
    fn put(&self, number: u64) {
        self.send(number).unwrap();
    }
}

#[cfg(crossbeam)]
impl In for crossbeam_channel::Receiver<u64> {
    fn next(&self) -> Option<u64> {
        self.recv().ok()
    }
}

fn line_up(arrived: &AtomicU64, threads: u64) -> Instant {
    thread::sleep(Duration::from_millis(100));
    arrived.fetch_add(1, SeqCst);
    while arrived.load(SeqCst) < threads {
        thread::yield_now();
    }
    Instant::now()
}

fn race<S: Out, R: In>(senders: Vec<S>, receivers: Vec<R>, each: u64) {
    let arrived = &AtomicU64::new(0);
    let threads = (senders.len() + receivers.len()) as u64;
    let (mut sum, mut nanos) = (0u64, 0);
    thread::scope(|scope| {
        let mut running = Vec::new();
        for sender in senders {
            running.push(scope.spawn(move || {
                let begun = line_up(arrived, threads);
                for number in 0..each {
                    sender.put(number);
                }
                (0u64, begun.elapsed().as_nanos())
            }));
        }
        for receiver in receivers {
            running.push(scope.spawn(move || {
                let begun = line_up(arrived, threads);
                let mut sum = 0u64;
                while let Some(number) = receiver.next() {
                    sum = sum.wrapping_add(number);
                }
                (sum, begun.elapsed().as_nanos())
            }));
        }
        for one in running {
            let (came, took) = one.join().unwrap();
            sum = sum.wrapping_add(came);
            nanos = nanos.max(took);
        }
    });
    println!("{sum} {nanos}");
}

fn main() {
    let kind = std::env::args().nth(1).unwrap();
    let words: Vec<u64> = std::env::args().skip(2).map(|word| word.parse().unwrap()).collect();
    let (senders, receivers, capacity, each) = (words[0], words[1], words[2] as usize, words[3] / words[0]);
    if kind == "crossbeam" {
        #[cfg(crossbeam)]
        {
            let (sender, receiver) = crossbeam_channel::bounded(capacity);
            let (senders, receivers): (Vec<_>, Vec<_>) = (
                (0..senders).map(|_| sender.clone()).collect(),
                (0..receivers).map(|_| receiver.clone()).collect(),
            );
            drop((sender, receiver));
            race(senders, receivers, each);
        }
        return;
    }
    let (sender, receiver) = sync_channel(capacity);
    let senders: Vec<_> = (0..senders).map(|_| sender.clone()).collect();
    drop(sender);
    if receivers == 1 {
        race(senders, vec![One(receiver)], each);
    } else {
        let shared = Mutex::new(receiver);
        race(senders, (0..receivers).map(|_| Shared(&shared)).collect(), each);
    }
}
