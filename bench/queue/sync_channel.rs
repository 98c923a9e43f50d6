//! The same over `std::sync::mpsc::sync_channel`, with the same words and the same line of output.
use std::sync::atomic::{AtomicU64, Ordering::SeqCst};
use std::sync::mpsc::sync_channel;
use std::thread;
use std::time::{Duration, Instant};

fn line_up(arrived: &AtomicU64, threads: u64) {
    thread::sleep(Duration::from_millis(100));
    arrived.fetch_add(1, SeqCst);
    while arrived.load(SeqCst) < threads {
        thread::yield_now();
    }
}

fn main() {
    let words: Vec<u64> = std::env::args().skip(2).map(|word| word.parse().unwrap()).collect();
    let (producers, limit, messages) = (words[0], words[1], words[2] / words[0] * words[0]);
    let arrived = AtomicU64::new(0);
    let (sender, receiver) = sync_channel::<Vec<u8>>(limit as usize);
    thread::scope(|scope| {
        for _ in 0..producers {
            let sender = sender.clone();
            let arrived = &arrived;
            let blocks: Vec<Vec<u8>> =
                (0..messages / producers).map(|index| index.to_le_bytes().to_vec()).collect();
            scope.spawn(move || {
                line_up(arrived, producers + 1);
                for block in blocks {
                    sender.send(block).unwrap();
                }
            });
        }
        line_up(&arrived, producers + 1);
        let begun = Instant::now();
        let (mut came, mut bytes) = (0, 0);
        while came < messages {
            bytes += receiver.recv().unwrap().len();
            came += 1;
        }
        println!("{bytes} {}", begun.elapsed().as_nanos());
    });
}
