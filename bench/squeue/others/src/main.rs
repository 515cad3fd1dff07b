//! The entries of `squeue_bench` through two queues of crates that many use: a `VecDeque` under `parking_lot`'s Mutex, whose worker its
//! Condvar wakes, and `tokio`'s unbounded channel with an actor, a task that owns the counters. Words: `parking` or `tokio`, and then as
//! those of `baseline`.

#[path = "../../baseline/src/items.rs"]
mod items;

use items::{Counters, Entrance, Item, Worked, bring_all, measured, run_worked};
use parking_lot::{Condvar, Mutex};
use std::collections::VecDeque;
use std::mem;
use std::thread::scope;
use tokio::runtime::Builder;
use tokio::sync::mpsc::{UnboundedReceiver, UnboundedSender, unbounded_channel};

/// What waits in a queue, and whether nothing more will come.
#[derive(Default)]
struct Waiting {
    items: VecDeque<Item>,
    closed: bool,
}

/// A queue under a lock. Who finds it empty wakes the worker.
#[derive(Default)]
struct Locked {
    waiting: Mutex<Waiting>,
    filled: Condvar,
}

impl Worked for Locked {
    fn close(&self) {
        self.waiting.lock().closed = true;
        self.filled.notify_one();
    }

    /// Takes all that waits, and processes it outside of the lock.
    fn work(&self, counters: &mut Counters<'_>) {
        let mut taken = VecDeque::new();
        loop {
            let mut waiting = self.waiting.lock();
            while waiting.items.is_empty() {
                if waiting.closed {
                    return;
                }
                self.filled.wait(&mut waiting);
            }
            mem::swap(&mut waiting.items, &mut taken);
            drop(waiting);
            for item in taken.drain(..) {
                counters.add(item);
            }
        }
    }
}

impl<const N: usize> Entrance<N> for &Locked {
    fn bring(&self, chain: [Item; N]) {
        let mut waiting = self.waiting.lock();
        let was_empty = waiting.items.is_empty();
        waiting.items.extend(chain);
        drop(waiting);
        if was_empty {
            self.filled.notify_one();
        }
    }
}

impl<const N: usize> Entrance<N> for UnboundedSender<[Item; N]> {
    fn bring(&self, chain: [Item; N]) {
        self.send(chain)
            .expect("the actor receives until all senders are gone");
    }
}

/// An actor: it owns the counters, and processes what comes until all senders are gone.
async fn act<const N: usize>(mut from: UnboundedReceiver<[Item; N]>, counters: &mut Counters<'_>) {
    while let Some(chain) = from.recv().await {
        for item in chain {
            counters.add(item);
        }
    }
}

/// Each actor is the main task of a runtime with one thread, so that it may borrow its counters.
fn run_actors<const N: usize>(rings: &[Vec<Item>], workers: &mut [Counters<'_>]) {
    scope(|threads| {
        let mut entrances = Vec::new();
        for counters in workers {
            let (to, from) = unbounded_channel();
            entrances.push(to);
            threads.spawn(move || {
                let runtime = Builder::new_current_thread()
                    .build()
                    .expect("a runtime without input and output");
                runtime.block_on(act::<N>(from, counters));
            });
        }
        for items in rings {
            let entrances = entrances.clone();
            threads.spawn(move || bring_all(items, &entrances));
        }
    });
}

fn run<const N: usize>(kind: &str, rings: &[Vec<Item>], workers: &mut [Counters<'_>]) {
    match kind {
        "parking" => run_worked::<Locked, N>(rings, workers),
        _ => run_actors::<N>(rings, workers),
    }
}

fn main() {
    let words: Vec<String> = std::env::args().skip(1).collect();
    measured(&words[1..], |is_single, rings, workers| {
        if is_single {
            run::<1>(&words[0], rings, workers);
        } else {
            run::<32>(&words[0], rings, workers);
        }
    });
}
