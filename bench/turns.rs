// A model of the lock of crates/turn_lock, with threads whose turns read and write memory that all share.
// Usage: turns THREADS TRANSACTIONS LOOKS TURN BETWEEN LINES: so many threads with so many transactions each, of four turns; a caller
// looks so often before it sleeps; steps of arithmetic in the turns of a transaction and between them; lines of shared memory that
// its turns touch. Prints transactions a millisecond, and the milliseconds of the processors and of the system.
use std::hint::{black_box, spin_loop};
use std::sync::Arc;
use std::sync::atomic::{AtomicU64, Ordering::SeqCst};
use std::thread;
use std::time::Instant;

unsafe extern "C" {
    fn syscall(number: i64, ...) -> i64;
}

const FUTEX: i64 = 202;
const WAIT: i32 = 128;
const WAKE: i32 = 129;
const GETRUSAGE: i64 = 98;

const LOOKS_BEFORE_TICKET: u32 = 100_000;

// Words that no two of share a line of the cache.
#[repr(align(128))]
struct Word(AtomicU64);

struct Turns {
    serving: Word,
    next: Word,
    asleep: Word,
    lines: Vec<Word>,
}

impl Turns {
    fn futex(&self, operation: i32, value: u32) {
        let timeout: [i64; 2] = [0, 100_000_000];
        unsafe {
            syscall(FUTEX, self.serving.0.as_ptr(), operation, value, timeout.as_ptr(), 0usize, 0u32);
        }
    }

    fn enter(&self, looks: u32) {
        for look in 1..=LOOKS_BEFORE_TICKET {
            let serving = self.serving.0.load(SeqCst);
            let is_free = self.next.0.load(SeqCst) == serving;
            if is_free && self.next.0.compare_exchange(serving, serving + 1, SeqCst, SeqCst).is_ok() {
                return;
            }
            if look % looks == 0 {
                self.asleep.0.store(1, SeqCst);
                self.futex(WAIT, serving as u32);
                self.asleep.0.store(1, SeqCst);
            } else {
                spin_loop();
            }
        }
        let ticket = self.next.0.fetch_add(1, SeqCst);
        while self.serving.0.load(SeqCst) != ticket {
            thread::yield_now();
        }
    }

    fn leave(&self) {
        let asleep = self.asleep.0.swap(0, SeqCst) != 0;
        self.serving.0.fetch_add(1, SeqCst);
        if asleep || self.asleep.0.load(SeqCst) != 0 {
            self.futex(WAKE, 1);
        }
    }

    fn touch(&self, lines: u64, seed: u64) {
        for line in 0..lines {
            let place = seed.wrapping_add(line.wrapping_mul(2_654_435_761)) % self.lines.len() as u64;
            let word = &self.lines[place as usize].0;
            word.store(word.load(SeqCst) + 1, std::sync::atomic::Ordering::Relaxed);
        }
    }
}

fn work(steps: u64, seed: &mut u64) {
    for _ in 0..steps {
        *seed = black_box(seed.wrapping_mul(6364136223846793005).wrapping_add(1442695040888963407));
    }
}

fn play(turns: &Turns, transactions: u64, looks: u32, turn: u64, between: u64, lines: u64, mut seed: u64) {
    // What begins and takes a head is short, what names and commits is long.
    let shares = [5, 35, 5, 55];
    for _ in 0..transactions {
        for share in shares {
            turns.enter(looks);
            work(turn * share / 100, &mut seed);
            turns.touch(lines * share / 100, seed);
            turns.leave();
            work(between / shares.len() as u64, &mut seed);
        }
    }
}

fn main() {
    let words: Vec<u64> = std::env::args().skip(1).map(|word| word.parse().unwrap()).collect();
    let [threads, transactions, looks, turn, between, lines] = words[..] else {
        panic!("six numbers")
    };
    let word = || Word(AtomicU64::new(0));
    let turns = Arc::new(Turns {
        serving: word(),
        next: word(),
        asleep: word(),
        lines: (0..4096).map(|_| word()).collect(),
    });
    let start = Instant::now();
    let playing: Vec<_> = (1..=threads)
        .map(|seed| {
            let turns = turns.clone();
            thread::spawn(move || play(&turns, transactions, looks as u32, turn, between, lines, seed))
        })
        .collect();
    playing.into_iter().for_each(|it| it.join().unwrap());
    let spent = start.elapsed().as_secs_f64() * 1000.0;
    let mut used = [0i64; 18];
    unsafe { syscall(GETRUSAGE, 0i32, used.as_mut_ptr()) };
    let milliseconds = |at: usize| used[at] * 1000 + used[at + 1] / 1000;
    println!("{:.1} transactions/ms, processors {} ms, system {} ms", (threads * transactions) as f64 / spent, milliseconds(0), milliseconds(2));
}
