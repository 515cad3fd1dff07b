//! A queue of segments with 31 places each, as crossbeam's `SegQueue` has them, and one consumer, which looks for a while and
//! then parks. A place holds a chain.

use crate::items::{Counters, Entrance, Item, Worked};
use std::array;
use std::cell::UnsafeCell;
use std::hint::spin_loop;
use std::ptr;
use std::sync::OnceLock;
use std::sync::atomic::Ordering::{Acquire, Release, SeqCst};
use std::sync::atomic::{AtomicBool, AtomicPtr, AtomicUsize};
use std::thread::{Thread, current, park, yield_now};

/// A segment has one place fewer; the last number of a lap stands for the change to the next segment.
const LAP: usize = 32;

/// How often the consumer looks at a place before it parks.
const LOOKS: u32 = 50;

struct Place<const N: usize> {
    ready: AtomicBool,
    chain: UnsafeCell<[Item; N]>,
}

struct Segment<const N: usize> {
    next: AtomicPtr<Segment<N>>,
    places: [Place<N>; LAP - 1],
}

impl<const N: usize> Segment<N> {
    fn new() -> *mut Segment<N> {
        let place = || Place {
            ready: AtomicBool::new(false),
            chain: UnsafeCell::new(array::from_fn(|_| Item { key: 0, n: 0 })),
        };
        Box::into_raw(Box::new(Segment {
            next: AtomicPtr::new(ptr::null_mut()),
            places: array::from_fn(|_| place()),
        }))
    }
}

/// Where producers put the next chain, on lines of its own.
#[repr(align(128))]
struct Tail<const N: usize> {
    index: AtomicUsize,
    segment: AtomicPtr<Segment<N>>,
}

pub struct Segments<const N: usize> {
    tail: Tail<N>,
    first: *mut Segment<N>,
    asleep: AtomicBool,
    closed: AtomicBool,
    consumer: OnceLock<Thread>,
}

unsafe impl<const N: usize> Sync for Segments<N> {}

impl<const N: usize> Default for Segments<N> {
    fn default() -> Self {
        let first = Segment::new();
        Segments {
            tail: Tail {
                index: AtomicUsize::new(0),
                segment: AtomicPtr::new(first),
            },
            first,
            asleep: AtomicBool::new(false),
            closed: AtomicBool::new(false),
            consumer: OnceLock::new(),
        }
    }
}

impl<const N: usize> Segments<N> {
    /// The next place. Who takes a segment's last one hangs the next segment on.
    fn next_place(&self) -> &Place<N> {
        loop {
            let index = self.tail.index.load(Acquire);
            let segment = self.tail.segment.load(Acquire);
            let at = index % LAP;
            if at == LAP - 1 {
                yield_now();
                continue;
            }
            if self
                .tail
                .index
                .compare_exchange_weak(index, index + 1, SeqCst, Acquire)
                .is_err()
            {
                spin_loop();
                continue;
            }
            if at + 1 == LAP - 1 {
                let next = Segment::new();
                self.tail.segment.store(next, Release);
                self.tail.index.store(index + 2, Release);
                unsafe { (*segment).next.store(next, Release) };
            }
            return unsafe { &(*segment).places[at] };
        }
    }

    fn wake(&self) {
        if self.asleep.load(SeqCst) && self.asleep.swap(false, SeqCst) {
            if let Some(consumer) = self.consumer.get() {
                consumer.unpark();
            }
        }
    }

    /// Waits for the place, and tells whether a chain came.
    fn comes(&self, place: &Place<N>) -> bool {
        for _ in 0..LOOKS {
            if place.ready.load(Acquire) {
                return true;
            }
            spin_loop();
        }
        loop {
            self.asleep.store(true, SeqCst);
            if place.ready.load(SeqCst) {
                self.asleep.store(false, SeqCst);
                return true;
            }
            if self.closed.load(SeqCst) {
                return place.ready.load(SeqCst);
            }
            while self.asleep.load(SeqCst) {
                park();
            }
        }
    }
}

impl<const N: usize> Worked for Segments<N> {
    fn close(&self) {
        self.closed.store(true, SeqCst);
        self.wake();
    }

    /// Takes chain after chain, and processes it.
    fn work(&self, counters: &mut Counters<'_>) {
        self.consumer.set(current()).expect("one consumer");
        let mut segment = self.first;
        loop {
            for place in unsafe { &(*segment).places } {
                if !self.comes(place) {
                    drop(unsafe { Box::from_raw(segment) });
                    return;
                }
                for item in unsafe { &*place.chain.get() } {
                    counters.add(*item);
                }
            }
            let mut next = unsafe { (*segment).next.load(Acquire) };
            while next.is_null() {
                spin_loop();
                next = unsafe { (*segment).next.load(Acquire) };
            }
            drop(unsafe { Box::from_raw(segment) });
            segment = next;
        }
    }
}

impl<const N: usize> Entrance<N> for &Segments<N> {
    fn bring(&self, chain: [Item; N]) {
        let place = self.next_place();
        unsafe { *place.chain.get() = chain };
        place.ready.store(true, SeqCst);
        self.wake();
    }
}
