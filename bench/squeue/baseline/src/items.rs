//! What is brought to a queue, what becomes of it there, and how a case is run and told.

use std::thread::scope;
use std::time::Instant;

/// Item `n` of a key. Its amount is looked up when it is processed.
#[derive(Clone, Copy, Debug)]
pub struct Item {
    pub key: u32,
    pub n: u32,
}

/// For each key the amounts of its items.
pub type Amounts = Vec<Vec<u32>>;

/// For each key the sum of the amounts that came.
pub struct Counters<'a> {
    amounts: &'a Amounts,
    totals: Vec<u64>,
}

impl<'a> Counters<'a> {
    pub fn new(amounts: &'a Amounts) -> Counters<'a> {
        let totals = vec![0; amounts.len()];
        Counters { amounts, totals }
    }

    pub fn add(&mut self, item: Item) {
        let key = item.key as usize;
        self.totals[key] += u64::from(self.amounts[key][item.n as usize]);
    }

    pub fn sum(&self) -> u64 {
        self.totals.iter().sum()
    }
}

/// Where a thread brings chains of N items.
pub trait Entrance<const N: usize> {
    fn bring(&self, chain: [Item; N]);
}

/// Brings all items to each queue, and goes round the queues chain by chain.
pub fn bring_all<const N: usize>(items: &[Item], queues: &[impl Entrance<N>]) {
    for chain in items.as_chunks().0 {
        for queue in queues {
            queue.bring(*chain);
        }
    }
}

/// A queue whose worker processes what comes, until it is closed.
pub trait Worked: Default + Sync {
    fn work(&self, counters: &mut Counters<'_>);

    fn close(&self);
}

/// Brings the items of each thread to queues of this kind, each with a worker's thread.
pub fn run_worked<Q: Worked, const N: usize>(rings: &[Vec<Item>], workers: &mut [Counters<'_>])
where
    for<'q> &'q Q: Entrance<N>,
{
    let queues: Vec<Q> = workers.iter().map(|_| Q::default()).collect();
    let entrances: Vec<&Q> = queues.iter().collect();
    scope(|threads| {
        for (queue, counters) in queues.iter().zip(workers) {
            threads.spawn(move || queue.work(counters));
        }
        let bringing: Vec<_> = rings
            .iter()
            .map(|items| threads.spawn(|| bring_all::<N>(items, &entrances)))
            .collect();
        for thread in bringing {
            thread.join().expect("no thread panics");
        }
        for queue in &queues {
            queue.close();
        }
    });
}

/// A case by its words THREADS QUEUES CHAIN ENTRIES: what `run` is given are the items of each thread and the counters of each queue.
/// Tells how many entries there were, what they took, and their total.
pub fn measured(words: &[String], run: impl FnOnce(bool, &[Vec<Item>], &mut [Counters<'_>])) {
    let number = |i: usize| words[i].parse::<u32>().expect("a number");
    let (threads, queues, chain, entries) = (number(0), number(1), number(2), number(3));
    let items = entries / (queues * threads) / 32 * 32;
    let amounts: Amounts = (0..threads)
        .map(|key| (0..items).map(|n| (key + n) % 100).collect())
        .collect();
    let rings: Vec<Vec<Item>> = (0..threads)
        .map(|key| (0..items).map(|n| Item { key, n }).collect())
        .collect();
    let mut workers: Vec<Counters<'_>> = (0..queues).map(|_| Counters::new(&amounts)).collect();
    let start = Instant::now();
    run(chain == 1, &rings, &mut workers);
    let nanos = start.elapsed().as_nanos();
    let sum: u64 = workers.iter().map(Counters::sum).sum();
    println!(
        "entries {} nanos {nanos} total {sum}",
        queues * threads * items
    );
}
