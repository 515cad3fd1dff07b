//! The turns of `squeue_bench gate` over two other locks: std's `Mutex`, and a plain ticket lock that parks.
//! Words: `mutex` or `ticket`, and then THREADS TURNS ROUNDS as `squeue_bench gate` takes them.

use std::cell::UnsafeCell;
use std::ffi::{c_int, c_long};
use std::sync::Mutex;
use std::sync::atomic::{AtomicU32, Ordering::SeqCst};
use std::time::Instant;

struct Tally {
    turns: u64,
    mixed: u64,
}

impl Tally {
    fn take_turn(&mut self, rounds: u32) {
        self.turns += 1;
        for _ in 0..rounds {
            self.mixed = (self.mixed ^ (self.mixed >> 29)).wrapping_mul(6364136223846793005);
        }
    }
}

unsafe extern "C" {
    fn syscall(number: c_long, ...) -> c_long;
}

// Linux on x86-64.
const FUTEX: c_long = 202;
const WAIT: c_int = 128;
const WAKE: c_int = 129;

fn park(word: &AtomicU32, while_it_is: u32) {
    unsafe { syscall(FUTEX, word.as_ptr(), WAIT, while_it_is, std::ptr::null::<u8>()) };
}

fn wake_all(word: &AtomicU32) {
    unsafe { syscall(FUTEX, word.as_ptr(), WAKE, c_int::MAX) };
}

/// Looks as often as the gate does before it parks.
const LOOKS: u32 = 64;

struct TicketLock<T> {
    next: AtomicU32,
    serving: AtomicU32,
    value: UnsafeCell<T>,
}

unsafe impl<T: Send> Sync for TicketLock<T> {}

impl<T> TicketLock<T> {
    fn with(&self, turn: impl FnOnce(&mut T)) {
        let ticket = self.next.fetch_add(1, SeqCst);
        let mut looks = 0;
        loop {
            let serving = self.serving.load(SeqCst);
            if serving == ticket {
                break;
            }
            looks += 1;
            if looks % LOOKS == 0 {
                park(&self.serving, serving);
            } else {
                std::hint::spin_loop();
            }
        }
        turn(unsafe { &mut *self.value.get() });
        let next = self.serving.fetch_add(1, SeqCst).wrapping_add(1);
        if self.next.load(SeqCst) != next {
            wake_all(&self.serving);
        }
    }
}

fn measure(threads: u32, turns: u32, turn: impl Fn() + Sync) -> u128 {
    let start = Instant::now();
    std::thread::scope(|scope| {
        for _ in 0..threads {
            scope.spawn(|| {
                for _ in 0..turns {
                    turn();
                }
            });
        }
    });
    start.elapsed().as_nanos()
}

fn main() {
    let words: Vec<String> = std::env::args().skip(1).collect();
    let number = |i: usize| words[i].parse::<u32>().expect("a number");
    let (threads, turns, rounds) = (number(1), number(2), number(3));
    let tally = Tally { turns: 0, mixed: 1 };
    let (nanos, tally) = match words[0].as_str() {
        "mutex" => {
            let lock = Mutex::new(tally);
            let nanos = measure(threads, turns, || lock.lock().expect("no panic").take_turn(rounds));
            (nanos, lock.into_inner().expect("no panic"))
        }
        _ => {
            let lock = TicketLock {
                next: AtomicU32::new(0),
                serving: AtomicU32::new(0),
                value: UnsafeCell::new(tally),
            };
            let nanos = measure(threads, turns, || lock.with(|tally| tally.take_turn(rounds)));
            (nanos, lock.value.into_inner())
        }
    };
    println!("turns {} nanos {nanos} mixed {}", tally.turns, tally.mixed);
}
