//! Flat combining: each thread has a place for one chain, and whoever gets the lock processes the chains of all places. There
//! is no worker. An entry returns once its chain stands in its place.

use crate::items::{Counters, Entrance, Item};
use std::array;
use std::cell::UnsafeCell;
use std::sync::Mutex;
use std::sync::atomic::AtomicBool;
use std::sync::atomic::Ordering::{Acquire, Release};
use std::thread::yield_now;

/// How often a thread looks at its place before it lets others run.
const LOOKS: u32 = 20;

/// A place on lines of its own. Its thread writes the chain while it isn't full, who combines reads it while it is.
#[repr(align(128))]
struct Place<const N: usize> {
    full: AtomicBool,
    chain: UnsafeCell<[Item; N]>,
}

unsafe impl<const N: usize> Sync for Place<N> {}

pub struct Combining<'q, 'a, const N: usize> {
    places: Vec<Place<N>>,
    counters: Mutex<&'q mut Counters<'a>>,
}

impl<'q, 'a, const N: usize> Combining<'q, 'a, N> {
    pub fn new(threads: usize, counters: &'q mut Counters<'a>) -> Self {
        let place = || Place {
            full: AtomicBool::new(false),
            chain: UnsafeCell::new(array::from_fn(|_| Item { key: 0, n: 0 })),
        };
        Combining {
            places: (0..threads).map(|_| place()).collect(),
            counters: Mutex::new(counters),
        }
    }

    /// Processes what stands in the places, unless somebody does so already.
    fn combine(&self) {
        let Ok(mut counters) = self.counters.try_lock() else {
            return;
        };
        for place in &self.places {
            if place.full.load(Acquire) {
                for item in unsafe { &*place.chain.get() } {
                    counters.add(*item);
                }
                place.full.store(false, Release);
            }
        }
    }

    /// Processes what is left, when all threads have brought all.
    pub fn close(&self) {
        while self.places.iter().any(|place| place.full.load(Acquire)) {
            self.combine();
        }
    }
}

/// A thread's place in a queue.
pub struct At<'c, 'q, 'a, const N: usize> {
    pub queue: &'c Combining<'q, 'a, N>,
    pub place: usize,
}

impl<const N: usize> Entrance<N> for At<'_, '_, '_, N> {
    fn bring(&self, chain: [Item; N]) {
        let place = &self.queue.places[self.place];
        let mut looks = 0;
        while place.full.load(Acquire) {
            self.queue.combine();
            looks += 1;
            if looks > LOOKS {
                yield_now();
            }
        }
        unsafe { *place.chain.get() = chain };
        place.full.store(true, Release);
        self.queue.combine();
    }
}
