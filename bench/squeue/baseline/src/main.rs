//! The entries of `squeue_bench` through four queues in plain Rust: a `VecDeque` under std's `Mutex`, whose worker a `Condvar`
//! wakes; std's channel with one consumer; flat combining; and a queue of segments with one consumer. Words: `mutex`,
//! `channel`, `combining` or `segments`, and then THREADS QUEUES CHAIN ENTRIES as `squeue_bench` takes THREADS SQUEUES CHAIN
//! ENTRIES, where CHAIN is 1 or 32.

mod combining;
mod items;
mod segments;

use combining::{At, Combining};
use items::{Counters, Entrance, Item, Worked, bring_all, measured, run_worked};
use segments::Segments;
use std::collections::VecDeque;
use std::mem;
use std::sync::mpsc::{Receiver, Sender, channel};
use std::sync::{Condvar, Mutex, MutexGuard};
use std::thread::scope;

/// What waits in a queue, and whether nothing more will come.
#[derive(Default)]
struct Waiting {
    items: VecDeque<Item>,
    closed: bool,
}

/// A queue under a lock. Who finds it empty wakes the worker.
#[derive(Default)]
struct Locked {
    waiting: Mutex<Waiting>,
    filled: Condvar,
}

impl Locked {
    fn lock(&self) -> MutexGuard<'_, Waiting> {
        self.waiting.lock().expect("no thread panics")
    }
}

impl Worked for Locked {
    fn close(&self) {
        self.lock().closed = true;
        self.filled.notify_one();
    }

    /// Takes all that waits, and processes it outside of the lock.
    fn work(&self, counters: &mut Counters<'_>) {
        let mut taken = VecDeque::new();
        loop {
            let mut waiting = self.lock();
            while waiting.items.is_empty() {
                if waiting.closed {
                    return;
                }
                waiting = self.filled.wait(waiting).expect("no thread panics");
            }
            mem::swap(&mut waiting.items, &mut taken);
            drop(waiting);
            for item in taken.drain(..) {
                counters.add(item);
            }
        }
    }
}

impl<const N: usize> Entrance<N> for &Locked {
    fn bring(&self, chain: [Item; N]) {
        let mut waiting = self.lock();
        let was_empty = waiting.items.is_empty();
        waiting.items.extend(chain);
        drop(waiting);
        if was_empty {
            self.filled.notify_one();
        }
    }
}

impl<const N: usize> Entrance<N> for Sender<[Item; N]> {
    fn bring(&self, chain: [Item; N]) {
        self.send(chain)
            .expect("the consumer receives until all senders are gone");
    }
}

fn consume<const N: usize>(from: Receiver<[Item; N]>, counters: &mut Counters<'_>) {
    for chain in from {
        for item in chain {
            counters.add(item);
        }
    }
}

fn run_channels<const N: usize>(rings: &[Vec<Item>], workers: &mut [Counters<'_>]) {
    scope(|threads| {
        let mut entrances = Vec::new();
        for counters in workers {
            let (to, from) = channel();
            entrances.push(to);
            threads.spawn(move || consume::<N>(from, counters));
        }
        for items in rings {
            let entrances = entrances.clone();
            threads.spawn(move || bring_all(items, &entrances));
        }
    });
}

fn run_combining<const N: usize>(rings: &[Vec<Item>], workers: &mut [Counters<'_>]) {
    let queues: Vec<Combining<'_, '_, N>> = workers
        .iter_mut()
        .map(|counters| Combining::new(rings.len(), counters))
        .collect();
    scope(|threads| {
        for (place, items) in rings.iter().enumerate() {
            let entrances: Vec<At<'_, '_, '_, N>> =
                queues.iter().map(|queue| At { queue, place }).collect();
            threads.spawn(move || bring_all(items, &entrances));
        }
    });
    for queue in &queues {
        queue.close();
    }
}

fn run<const N: usize>(kind: &str, rings: &[Vec<Item>], workers: &mut [Counters<'_>]) {
    match kind {
        "mutex" => run_worked::<Locked, N>(rings, workers),
        "channel" => run_channels::<N>(rings, workers),
        "combining" => run_combining::<N>(rings, workers),
        _ => run_worked::<Segments<N>, N>(rings, workers),
    }
}

fn main() {
    let words: Vec<String> = std::env::args().skip(1).collect();
    measured(&words[1..], |is_single, rings, workers| {
        if is_single {
            run::<1>(&words[0], rings, workers);
        } else {
            run::<32>(&words[0], rings, workers);
        }
    });
}
