//! The same bytes through Rust's `sync_channel(1024)`: each write is a vector.
//! usage: channel WRITERS WRITES SIZE
use std::sync::mpsc::sync_channel;
use std::{env, thread};

fn main() {
    let numbers: Vec<usize> = env::args().skip(1).map(|word| word.parse().unwrap()).collect();
    let [writers, writes, size] = numbers[..] else {
        panic!("three numbers")
    };
    let (out, into) = sync_channel::<Vec<u8>>(1024);
    let sending: Vec<_> = (0..writers)
        .map(|_| {
            let out = out.clone();
            thread::spawn(move || {
                let bytes = vec![7; size];
                for _ in 0..writes {
                    out.send(bytes.clone()).unwrap();
                }
            })
        })
        .collect();
    drop(out);
    let mut buffer = vec![0; 65536];
    let mut came = 0;
    for block in into {
        buffer[..block.len()].copy_from_slice(&block);
        came += block.len();
    }
    for thread in sending {
        thread.join().unwrap();
    }
    println!("{came}");
}
