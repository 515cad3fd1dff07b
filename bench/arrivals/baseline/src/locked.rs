//! A map in shards, each under parking_lot's Mutex: each source adds its items itself.

use crate::items::{Asked, Totals, add, made, sums};
use crate::shards::shard_of;
use parking_lot::Mutex;
use std::thread::scope;

const SHARDS: usize = 64;

pub fn run(asked: Asked) -> (usize, u64) {
    let shards: Vec<Mutex<Totals>> = (0..SHARDS).map(|_| Mutex::default()).collect();
    scope(|threads| {
        for number in 0..asked.producers {
            let shards = &shards;
            threads.spawn(move || {
                for item in made(number, asked) {
                    add(&mut shards[shard_of(item.key, SHARDS)].lock(), item);
                }
            });
        }
    });
    sums(shards.into_iter().map(Mutex::into_inner))
}
