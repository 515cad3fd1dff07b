//! Crossbeam's bounded channels, each to a worker with a map of its own: a key belongs to one of them.

use crate::items::{Asked, Item, Totals, add, made, sums};
use crate::shards::shard_of;
use crossbeam_channel::{Receiver, bounded};
use std::thread::scope;

fn work(from: Receiver<Item>) -> Totals {
    let mut totals = Totals::new();
    for item in from {
        add(&mut totals, item);
    }
    totals
}

pub fn run(asked: Asked) -> (usize, u64) {
    let workers = asked.workers as usize;
    scope(|threads| {
        let (to, from): (Vec<_>, Vec<_>) = (0..workers).map(|_| bounded(asked.room)).unzip();
        for number in 0..asked.producers {
            let to = to.clone();
            threads.spawn(move || {
                for item in made(number, asked) {
                    to[shard_of(item.key, workers)]
                        .send(item)
                        .expect("a worker receives until all senders are gone");
                }
            });
        }
        drop(to);
        let working: Vec<_> = from
            .into_iter()
            .map(|f| threads.spawn(|| work(f)))
            .collect();
        sums(
            working
                .into_iter()
                .map(|w| w.join().expect("no thread panics")),
        )
    })
}
