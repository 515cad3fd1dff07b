//! An actor of tokio for each key: a task that owns the key's total, with a bounded channel. It begins when the key's first item comes.

use crate::items::{Asked, made};
use std::collections::HashMap;
use tokio::runtime::Builder;
use tokio::sync::mpsc::{Receiver, Sender, channel};
use tokio::task::JoinHandle;

/// How many items wait for an actor at most: as many as in a key's ring of a squeue.
const ROOM: usize = 64;

async fn act(mut from: Receiver<u32>) -> u64 {
    let mut total = 0u64;
    while let Some(amount) = from.recv().await {
        total = total.wrapping_add(u64::from(amount));
    }
    total
}

fn begin() -> (Sender<u32>, JoinHandle<u64>) {
    let (to, from) = channel(ROOM);
    (to, tokio::spawn(act(from)))
}

/// A source is a task. It hands back how many keys came, and the sum of their totals.
async fn bring(number: u32, asked: Asked) -> (usize, u64) {
    let mut actors = HashMap::new();
    for item in made(number, asked) {
        let (to, _) = actors.entry(item.key).or_insert_with(begin);
        to.send(item.amount)
            .await
            .expect("an actor receives until its sender is gone");
    }
    let keys = actors.len();
    let mut total = 0u64;
    for (to, actor) in actors.into_values() {
        drop(to);
        total = total.wrapping_add(actor.await.expect("no task panics"));
    }
    (keys, total)
}

pub fn run(asked: Asked) -> (usize, u64) {
    let runtime = Builder::new_multi_thread()
        .worker_threads(4)
        .build()
        .expect("a runtime without input and output");
    let (mut keys, mut total) = (0, 0u64);
    runtime.block_on(async {
        let sources: Vec<_> = (0..asked.producers)
            .map(|number| tokio::spawn(bring(number, asked)))
            .collect();
        for source in sources {
            let (its_keys, sum) = source.await.expect("no task panics");
            keys += its_keys;
            total = total.wrapping_add(sum);
        }
    });
    (keys, total)
}
