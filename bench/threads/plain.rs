//! What `p9sync threads` is measured beside: the same messages, the same check of their order and
//! the same line, in plain Rust. It ends with status 1 where the check failed.
//!
//! usage: plain WAY WRITERS WRITES SIZE, where WAY is
//!   ring       the steps of a pipe and nothing else: a ring without a lock, a wakeup of the reader
//!              by each write and of every writer by each read, on the words of sleep and wakeup,
//!              each on its line and each step with the operation that the library has for it;
//!              a block is read where it lies, and comes back to a writer through the slots of the
//!              ring; a writer looks for room a while before it sleeps
//!   apart      the same, with words and blocks where a table of the library has them: the tail on a
//!              line of its own, the words of four places on each line after it, and the blocks
//!              elsewhere
//!   channel    std's `sync_channel(16)`, whose reader checks a block where it lies, and copies none
//!   crossbeam  the same by crossbeam's `bounded(16)`, where the program was built with it
//!   pipe       a pipe of the system, whose reader takes as many messages at once as are there
use std::cell::UnsafeCell;
use std::env;
use std::io::{self, Read, Write};
use std::sync::atomic::Ordering::SeqCst;
use std::sync::atomic::{AtomicU32, AtomicU64};
use std::sync::mpsc::sync_channel;
use std::{process, thread};

const LIMIT: u64 = 16;
const HEAD: usize = 16;

/// The bit of the tail that says that the ring is hung up.
const MARK: u64 = 1 << 63;

/// How often a sleeper looks, how long it pauses between two looks, and how often it yields, before
/// it parks.
const LOOKS: u32 = 50;
const PAUSES: u32 = 8;
const YIELDS: u32 = 100;

/// Whether it came true while it was looked at with pauses.
fn looks_until(is_so: impl Fn() -> bool) -> bool {
    for _ in 0..LOOKS {
        if is_so() {
            return true;
        }
        pause();
    }
    false
}

fn pause() {
    (0..PAUSES).for_each(|_| std::hint::spin_loop());
}

#[derive(Clone, Copy)]
struct Opts {
    writers: usize,
    writes: u64,
    size: usize,
}

fn fill(message: &mut [u8], writer: u64, number: u64) {
    message[..8].copy_from_slice(&writer.to_be_bytes());
    message[8..HEAD].copy_from_slice(&number.to_be_bytes());
    message[HEAD..].fill(number as u8);
}

/// Whether all bytes are this one: no branch hangs on a byte, so many are looked at at once.
fn are_all(bytes: &[u8], byte: u8) -> bool {
    bytes.iter().fold(true, |same, b| same & (*b == byte))
}

/// What was read, and whether each piece was whole and the next of its writer.
struct Tally {
    writes: u64,
    bytes: u64,
    in_order: bool,
    next: Vec<u64>,
    size: usize,
}

impl Tally {
    fn new(opts: Opts) -> Tally {
        Tally {
            writes: 0,
            bytes: 0,
            in_order: true,
            next: vec![0; opts.writers],
            size: opts.size,
        }
    }

    fn count(&mut self, piece: &[u8]) {
        self.in_order = self.in_order && self.is_next(piece);
        self.writes += 1;
        self.bytes += piece.len() as u64;
    }

    fn is_next(&mut self, piece: &[u8]) -> bool {
        if piece.len() != self.size {
            return false;
        }
        let writer = u64::from_be_bytes(piece[..8].try_into().unwrap());
        let Some(next) = self.next.get_mut(writer as usize) else {
            return false;
        };
        let number = *next;
        *next += 1;
        piece[8..HEAD] == number.to_be_bytes() && are_all(&piece[HEAD..], number as u8)
    }

    fn say(&self, opts: Opts) {
        let order = if self.in_order { "in order" } else { "out of order" };
        println!("writers {} writes {} bytes {} {order}", opts.writers, self.writes, self.bytes);
    }
}

/// A word on a cache line of its own.
#[repr(align(64))]
struct Line<T>(T);

extern "C" {
    fn syscall(number: i64, ...) -> i64;
}

const FUTEX: i64 = 202;
const WAIT: i32 = 128;
const WAKE: i32 = 129;

/// A process's flags: it was woken; it parks.
const WOKEN: u32 = 1;
const PARKED: u32 = 2;

/// What is written together when a process is woken.
struct Rendez {
    level: AtomicU64,
    posted: AtomicU64,
}

/// The words of sleep and wakeup: those of each Rendez, and the flags of each process. The reader is
/// process 0 and waits at Rendez 0, writer w is process w + 1 and waits at Rendez w + 1.
struct Words {
    rendez: Vec<Line<Rendez>>,
    flags: Vec<Line<AtomicU32>>,
}

impl Words {
    fn new(procs: usize) -> Words {
        let rendez = |_| {
            Line(Rendez {
                level: AtomicU64::new(0),
                posted: AtomicU64::new(0),
            })
        };
        Words {
            rendez: (0..procs).map(rendez).collect(),
            flags: (0..procs).map(|_| Line(AtomicU32::new(0))).collect(),
        }
    }

    /// Each process sleeps at the Rendez of its own number, until its level is above the threshold
    /// or a wakeup takes the process out.
    fn sleep(&self, me: usize, threshold: u64) {
        let Rendez { level, posted } = &self.rendez[me].0;
        let name = me as u64 + 1;
        posted.compare_exchange(0, name, SeqCst, SeqCst).unwrap();
        let holds = level.load(SeqCst) > threshold;
        if !(holds && posted.compare_exchange(name, 0, SeqCst, SeqCst).is_ok()) {
            self.await_mark(me);
        }
        self.flags[me].0.swap(0, SeqCst);
    }

    fn await_mark(&self, me: usize) {
        let flags = &self.flags[me].0;
        if looks_until(|| flags.load(SeqCst) & WOKEN != 0) {
            return;
        }
        for _ in 0..YIELDS {
            if flags.load(SeqCst) & WOKEN != 0 {
                return;
            }
            thread::yield_now();
        }
        if flags.fetch_or(PARKED, SeqCst) & WOKEN != 0 {
            return;
        }
        while flags.load(SeqCst) & WOKEN == 0 {
            unsafe { syscall(FUTEX, flags.as_ptr(), WAIT, PARKED, 0usize) };
        }
    }

    fn wakeup(&self, rendez: usize, reached: u64) {
        let Rendez { level, posted } = &self.rendez[rendez].0;
        level.fetch_max(reached, SeqCst);
        if posted.load(SeqCst) == 0 {
            return;
        }
        let held = posted.swap(0, SeqCst);
        if held != 0 {
            let flags = &self.flags[held as usize - 1].0;
            if flags.fetch_or(WOKEN, SeqCst) & PARKED != 0 {
                unsafe { syscall(FUTEX, flags.as_ptr(), WAKE, 1) };
            }
        }
    }
}

/// Where a ring of LIMIT places has its words and blocks. The word of a place is 2 · lap where it is
/// free, and one more where its block stands. Where it is free it has a block to fill, which the
/// reader has emptied.
trait Places: Sync {
    fn new() -> Self;

    /// How many writes were accepted.
    fn tail(&self) -> &AtomicU64;

    fn sequence(&self, place: usize) -> &AtomicU64;

    fn block(&self, place: usize) -> *mut Vec<u8>;
}

struct Place {
    sequence: AtomicU64,
    block: UnsafeCell<Vec<u8>>,
}

/// Each word on the line of its block.
struct Together {
    tail: Line<AtomicU64>,
    places: Vec<Line<Place>>,
}

unsafe impl Sync for Together {}

impl Places for Together {
    fn new() -> Together {
        let place = |_| {
            Line(Place {
                sequence: AtomicU64::new(0),
                block: UnsafeCell::new(Vec::new()),
            })
        };
        Together {
            tail: Line(AtomicU64::new(0)),
            places: (0..LIMIT).map(place).collect(),
        }
    }

    fn tail(&self) -> &AtomicU64 {
        &self.tail.0
    }

    fn sequence(&self, place: usize) -> &AtomicU64 {
        &self.places[place].0.sequence
    }

    fn block(&self, place: usize) -> *mut Vec<u8> {
        self.places[place].0.block.get()
    }
}

/// As in a table of the library: the tail has the first line to itself, the words of four places
/// stand on each line after it, two words apart, and the blocks elsewhere.
struct Apart {
    tail: Line<AtomicU64>,
    sequences: Vec<Line<[AtomicU64; WORDS]>>,
    slots: Vec<Slot>,
}

/// How many words a line has, and how many a place has, of which the first is its sequence.
const WORDS: usize = 8;
const STRIDE: usize = 2;

/// As large as a slot of the library's queue.
struct Slot {
    block: UnsafeCell<Vec<u8>>,
    _rest: [u64; 2],
}

unsafe impl Sync for Apart {}

impl Places for Apart {
    fn new() -> Apart {
        let slot = |_| Slot {
            block: UnsafeCell::new(Vec::new()),
            _rest: [0; 2],
        };
        Apart {
            tail: Line(AtomicU64::new(0)),
            sequences: (0..STRIDE * LIMIT as usize / WORDS)
                .map(|_| Line(Default::default()))
                .collect(),
            slots: (0..LIMIT).map(slot).collect(),
        }
    }

    fn tail(&self) -> &AtomicU64 {
        &self.tail.0
    }

    fn sequence(&self, place: usize) -> &AtomicU64 {
        let word = STRIDE * place;
        &self.sequences[word / WORDS].0[word % WORDS]
    }

    fn block(&self, place: usize) -> *mut Vec<u8> {
        self.slots[place].block.get()
    }
}

struct Ring<P> {
    places: P,
    words: Words,
}

impl<P: Places> Ring<P> {
    fn new(writers: usize) -> Ring<P> {
        Ring {
            places: P::new(),
            words: Words::new(writers + 1),
        }
    }

    /// Writes into the spare block, and leaves the one that lay in the ring.
    fn write(&self, writer: usize, spare: &mut Vec<u8>, bytes: &[u8]) {
        spare.clear();
        spare.extend_from_slice(bytes);
        loop {
            let tail = self.places.tail().load(SeqCst);
            assert!(tail < MARK, "nothing is written after the hangup");
            let place = (tail % LIMIT) as usize;
            let word = self.places.sequence(place);
            let free = 2 * (tail / LIMIT);
            looks_until(|| word.load(SeqCst) >= free);
            let sequence = word.load(SeqCst);
            if sequence < free {
                // Full: all but the last LIMIT writes were taken out.
                self.words.sleep(writer + 1, tail - LIMIT);
            } else if sequence == free
                && self.places.tail().compare_exchange(tail, tail + 1, SeqCst, SeqCst).is_ok()
            {
                unsafe { std::mem::swap(&mut *self.places.block(place), spare) };
                word.store(free + 1, SeqCst);
                self.words.wakeup(0, tail + 1);
                return;
            } else {
                // Another write came first.
                pause();
            }
        }
    }

    fn wake_writers(&self, level: u64) {
        for rendez in 1..self.words.rendez.len() {
            self.words.wakeup(rendez, level);
        }
    }

    /// Reads one write where it lies, and leaves the block that it had before; `false` at the end.
    fn read(&self, head: &mut u64, block: &mut Vec<u8>) -> bool {
        loop {
            let place = (*head % LIMIT) as usize;
            let word = self.places.sequence(place);
            let free = 2 * (*head / LIMIT);
            let stands = || word.load(SeqCst) == free + 1;
            let ready = stands();
            if !ready && self.places.tail().load(SeqCst) == *head + MARK {
                return false;
            }
            if ready || stands() {
                unsafe { std::mem::swap(&mut *self.places.block(place), block) };
                word.store(free + 2, SeqCst);
                *head += 1;
                self.wake_writers(*head);
                return true;
            }
            self.words.sleep(0, *head);
        }
    }

    fn hangup(&self) {
        self.places.tail().fetch_or(MARK, SeqCst);
        self.words.wakeup(0, u64::MAX);
        self.wake_writers(u64::MAX);
    }
}

fn by_ring<P: Places>(opts: Opts) -> Tally {
    let ring = Ring::<P>::new(opts.writers);
    let ring = &ring;
    thread::scope(|scope| {
        let reader = scope.spawn(move || {
            let mut tally = Tally::new(opts);
            let mut block = Vec::new();
            let mut head = 0;
            while ring.read(&mut head, &mut block) {
                tally.count(&block);
            }
            tally
        });
        let writers: Vec<_> = (0..opts.writers)
            .map(|writer| {
                scope.spawn(move || {
                    let mut message = vec![0; opts.size];
                    let mut spare = Vec::new();
                    for number in 0..opts.writes {
                        fill(&mut message, writer as u64, number);
                        ring.write(writer, &mut spare, &message);
                    }
                })
            })
            .collect();
        for writer in writers {
            writer.join().unwrap();
        }
        ring.hangup();
        reader.join().unwrap()
    })
}

fn by_channel(opts: Opts) -> Tally {
    let (to, from) = sync_channel::<Vec<u8>>(LIMIT as usize);
    thread::scope(|scope| {
        let reader = scope.spawn(move || {
            let mut tally = Tally::new(opts);
            for block in from {
                tally.count(&block);
            }
            tally
        });
        for writer in 0..opts.writers {
            let to = to.clone();
            scope.spawn(move || {
                let mut message = vec![0; opts.size];
                for number in 0..opts.writes {
                    fill(&mut message, writer as u64, number);
                    to.send(message.clone()).unwrap();
                }
            });
        }
        drop(to);
        reader.join().unwrap()
    })
}

#[cfg(crossbeam)]
fn by_crossbeam(opts: Opts) -> Tally {
    let (to, from) = crossbeam_channel::bounded::<Vec<u8>>(LIMIT as usize);
    thread::scope(|scope| {
        let reader = scope.spawn(move || {
            let mut tally = Tally::new(opts);
            for block in from {
                tally.count(&block);
            }
            tally
        });
        for writer in 0..opts.writers {
            let to = to.clone();
            scope.spawn(move || {
                let mut message = vec![0; opts.size];
                for number in 0..opts.writes {
                    fill(&mut message, writer as u64, number);
                    to.send(message.clone()).unwrap();
                }
            });
        }
        drop(to);
        reader.join().unwrap()
    })
}

#[cfg(not(crossbeam))]
fn by_crossbeam(_: Opts) -> Tally {
    panic!("built without crossbeam")
}

/// Messages of up to 4,096 bytes are written whole; a longer one is whole where one writer writes.
fn by_pipe(opts: Opts) -> io::Result<Tally> {
    let (mut from, to) = io::pipe()?;
    thread::scope(|scope| {
        let reader = scope.spawn(move || -> io::Result<Tally> {
            let mut tally = Tally::new(opts);
            let mut buffer = vec![0; 65_536];
            let mut held = 0;
            loop {
                let count = from.read(&mut buffer[held..])?;
                if count == 0 {
                    return Ok(tally);
                }
                held += count;
                let mut at = 0;
                while held - at >= opts.size {
                    tally.count(&buffer[at..at + opts.size]);
                    at += opts.size;
                }
                buffer.copy_within(at..held, 0);
                held -= at;
            }
        });
        for writer in 0..opts.writers {
            let mut to = to.try_clone()?;
            scope.spawn(move || {
                let mut message = vec![0; opts.size];
                for number in 0..opts.writes {
                    fill(&mut message, writer as u64, number);
                    to.write_all(&message).unwrap();
                }
            });
        }
        drop(to);
        reader.join().unwrap()
    })
}

fn main() -> io::Result<()> {
    let words: Vec<String> = env::args().collect();
    let number = |at: usize| words[at].parse::<u64>().unwrap();
    let opts = Opts {
        writers: number(2) as usize,
        writes: number(3),
        size: number(4) as usize,
    };
    let tally = match words[1].as_str() {
        "ring" => by_ring::<Together>(opts),
        "apart" => by_ring::<Apart>(opts),
        "channel" => by_channel(opts),
        "crossbeam" => by_crossbeam(opts),
        _ => by_pipe(opts)?,
    };
    tally.say(opts);
    if !tally.in_order {
        process::exit(1);
    }
    Ok(())
}
