//! The same work in plain Rust: records of a lane through a bounded queue without locks between two
//! threads. The queue is crossbeam's `ArrayQueue` under `--cfg crossbeam`, and else the same written out: a
//! stamp on each slot, and a head and a tail that each count laps.
//!
//!     queue CAPACITY RECORDS     prints how many records came in order, and the microseconds that it took
#[cfg(crossbeam)]
use crossbeam_queue::ArrayQueue;
#[cfg(not(crossbeam))]
use written_out::ArrayQueue;
use std::time::Instant;

#[cfg(not(crossbeam))]
mod written_out {
    use std::cell::UnsafeCell;
    use std::mem::MaybeUninit;
    use std::sync::atomic::{fence, AtomicUsize, Ordering};

    /// A value on cache lines of its own.
    #[repr(align(128))]
    struct Padded<T>(T);

    struct Slot<T> {
        stamp: AtomicUsize,
        value: UnsafeCell<MaybeUninit<T>>,
    }

    pub struct ArrayQueue<T> {
        head: Padded<AtomicUsize>,
        tail: Padded<AtomicUsize>,
        slots: Box<[Slot<T>]>,
        one_lap: usize,
    }

    unsafe impl<T: Send> Sync for ArrayQueue<T> {}

    /// Waits a little longer each time, as crossbeam's `Backoff` does.
    struct Backoff(u32);

    impl Backoff {
        fn spin(&mut self) {
            for _ in 0..1u32 << self.0.min(6) {
                std::hint::spin_loop();
            }
            self.0 = (self.0 + 1).min(7);
        }

        fn snooze(&mut self) {
            if self.0 <= 6 {
                self.spin();
            } else {
                std::thread::yield_now();
            }
        }
    }

    impl<T: Copy> ArrayQueue<T> {
        pub fn new(capacity: usize) -> Self {
            let slots = (0..capacity).map(|at| Slot {
                stamp: AtomicUsize::new(at),
                value: UnsafeCell::new(MaybeUninit::uninit()),
            });
            ArrayQueue {
                head: Padded(AtomicUsize::new(0)),
                tail: Padded(AtomicUsize::new(0)),
                slots: slots.collect(),
                one_lap: (capacity + 1).next_power_of_two(),
            }
        }

        /// The next position, by the lap and the index of one.
        fn after(&self, at: usize) -> usize {
            let (index, lap) = (at & (self.one_lap - 1), at & !(self.one_lap - 1));
            if index + 1 < self.slots.len() {
                at + 1
            } else {
                lap.wrapping_add(self.one_lap)
            }
        }

        pub fn push(&self, value: T) -> Result<(), T> {
            let mut backoff = Backoff(0);
            let mut tail = self.tail.0.load(Ordering::Relaxed);
            loop {
                let slot = &self.slots[tail & (self.one_lap - 1)];
                let stamp = slot.stamp.load(Ordering::Acquire);
                if tail == stamp {
                    let next = self.after(tail);
                    match self.tail.0.compare_exchange_weak(tail, next, Ordering::SeqCst, Ordering::Relaxed) {
                        Ok(_) => {
                            unsafe { slot.value.get().write(MaybeUninit::new(value)) };
                            slot.stamp.store(tail + 1, Ordering::Release);
                            return Ok(());
                        }
                        Err(other) => {
                            tail = other;
                            backoff.spin();
                        }
                    }
                } else if stamp.wrapping_add(self.one_lap) == tail + 1 {
                    fence(Ordering::SeqCst);
                    let head = self.head.0.load(Ordering::Relaxed);
                    if head.wrapping_add(self.one_lap) == tail {
                        return Err(value);
                    }
                    backoff.spin();
                    tail = self.tail.0.load(Ordering::Relaxed);
                } else {
                    backoff.snooze();
                    tail = self.tail.0.load(Ordering::Relaxed);
                }
            }
        }

        pub fn pop(&self) -> Option<T> {
            let mut backoff = Backoff(0);
            let mut head = self.head.0.load(Ordering::Relaxed);
            loop {
                let slot = &self.slots[head & (self.one_lap - 1)];
                let stamp = slot.stamp.load(Ordering::Acquire);
                if head + 1 == stamp {
                    let next = self.after(head);
                    match self.head.0.compare_exchange_weak(head, next, Ordering::SeqCst, Ordering::Relaxed) {
                        Ok(_) => {
                            let value = unsafe { slot.value.get().read().assume_init() };
                            slot.stamp.store(head.wrapping_add(self.one_lap), Ordering::Release);
                            return Some(value);
                        }
                        Err(other) => {
                            head = other;
                            backoff.spin();
                        }
                    }
                } else if stamp == head {
                    fence(Ordering::SeqCst);
                    let tail = self.tail.0.load(Ordering::Relaxed);
                    if tail == head {
                        return None;
                    }
                    backoff.spin();
                    head = self.head.0.load(Ordering::Relaxed);
                } else {
                    backoff.snooze();
                    head = self.head.0.load(Ordering::Relaxed);
                }
            }
        }
    }
}

#[derive(Clone, Copy, PartialEq)]
#[allow(dead_code)]
enum Record {
    Line { number: u64, item: usize, period: u64, quantity: u64, cumulative: u64 },
    ItemEnd { number: u64, item: usize, lines: u64, cumulative: u64 },
    Reset { number: u64, item: usize, closed: u64 },
    Close { number: u64 },
}

/// The record of that number where so many pieces are shipped one by one.
fn record(shipments: u64, number: u64) -> Record {
    if number <= shipments {
        Record::Line { number, item: 0, period: 2, quantity: 1, cumulative: number }
    } else if number == shipments + 1 {
        Record::ItemEnd { number, item: 0, lines: shipments, cumulative: shipments }
    } else {
        Record::Close { number }
    }
}

/// Pushes the records, one after the other.
fn send(queue: &ArrayQueue<Record>, records: &[Record]) {
    let mut next = 0;
    while next < records.len() {
        match queue.push(records[next]) {
            Ok(()) => next += 1,
            Err(_) => std::thread::yield_now(),
        }
    }
}

/// Pops the records for as long as they come in order, and counts them.
fn take(queue: &ArrayQueue<Record>, records: &[Record]) -> usize {
    let mut next = 0;
    while next < records.len() {
        match queue.pop() {
            Some(record) if record == records[next] => next += 1,
            Some(_) => break,
            None => std::thread::yield_now(),
        }
    }
    next
}

fn main() {
    let words: Vec<u64> = std::env::args().skip(1).filter_map(|word| word.parse().ok()).collect();
    let (capacity, shipments) = (words[0] as usize, words[1] - 2);
    let records: Vec<Record> = (1..=shipments + 2).map(|number| record(shipments, number)).collect();
    let queue = ArrayQueue::new(capacity);
    let begun = Instant::now();
    let count = std::thread::scope(|scope| {
        scope.spawn(|| send(&queue, &records));
        take(&queue, &records)
    });
    println!("{count} {}", begun.elapsed().as_micros());
}
