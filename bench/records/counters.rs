//! The same work as `bench_records book` by a plain struct of counters: what a good programmer would have
//! written without proofs. It finds an item by its place.
use std::hint::black_box;

#[derive(Clone, Copy)]
enum Record {
    Line { number: u64, item: usize, period: u64, quantity: u64, cumulative: u64 },
    ItemEnd { number: u64, item: usize, lines: u64, cumulative: u64 },
}

#[derive(Clone, Copy, Default)]
struct Figure {
    figure: u64,
    lines: u64,
    ended: bool,
}

struct Book {
    next: u64,
    begun: Option<usize>,
    items: Vec<Figure>,
}

impl Book {
    fn book(&mut self, record: &Record) -> Result<(), ()> {
        match *record {
            Record::Line { number, item, period, quantity, cumulative } => {
                let known = self.items.get_mut(item).ok_or(())?;
                let fits = number == self.next
                    && self.begun.map_or(true, |begun| begun == item)
                    && !known.ended
                    && period < 104
                    && quantity > 0
                    && known.figure.checked_add(quantity) == Some(cumulative);
                if !fits {
                    return Err(());
                }
                known.figure = cumulative;
                known.lines += 1;
                self.begun = Some(item);
            }
            Record::ItemEnd { number, item, lines, cumulative } => {
                let known = self.items.get_mut(item).ok_or(())?;
                let fits = number == self.next && !known.ended && known.lines == lines && known.figure == cumulative;
                if !fits {
                    return Err(());
                }
                known.ended = true;
                self.begun = None;
            }
        }
        self.next += 1;
        Ok(())
    }
}

fn main() {
    let words: Vec<u64> = std::env::args().skip(1).filter_map(|word| word.parse().ok()).collect();
    let (items, lines) = (words[0] as usize, words[1]);
    let mut book = Book { next: 1, begun: None, items: vec![Figure::default(); items] };
    let mut count = 0u64;
    for item in 0..items {
        for line in 0..lines {
            let record = Record::Line { number: count + 1, item, period: line % 104, quantity: 1, cumulative: line + 1 };
            count += u64::from(book.book(black_box(&record)).is_ok());
        }
        let end = Record::ItemEnd { number: count + 1, item, lines, cumulative: lines };
        count += u64::from(book.book(black_box(&end)).is_ok());
    }
    println!("{count}");
}
