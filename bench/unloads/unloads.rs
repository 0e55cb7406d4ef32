// Loads and unloads one type as many times as its first argument says, over a table of 256 cells and 256 buckets that
// hold nothing, and prints the generation of the last handle. main.rattle does the same.
use std::hint::black_box;
use std::sync::atomic::{AtomicU64, Ordering::SeqCst};

const OWN: usize = 64;

struct Table {
    words: Vec<AtomicU64>,
    callers: usize,
    sites: usize,
    buckets: usize,
    cells_at: usize,
    rows_at: usize,
    buckets_at: usize,
    handles_at: usize,
}

#[derive(Clone, Copy)]
struct HandleWord {
    generation: u32,
    number: u16,
    live: bool,
}

struct Caller {
    owned: [HandleWord; OWN],
    limbo: Vec<(u16, u64)>,
}

fn open(callers: usize, tokens: usize, sites: usize, rows: usize, buckets: usize) -> Table {
    let cells_at = 1 + callers + tokens;
    let rows_at = cells_at + sites;
    let buckets_at = rows_at + 4 * rows;
    let handles_at = buckets_at + buckets;
    let words = (0..handles_at + OWN * callers).map(|_| AtomicU64::new(0)).collect();
    Table { words, callers, sites, buckets, cells_at, rows_at, buckets_at, handles_at }
}

fn pack(word: HandleWord) -> u64 {
    u64::from(word.live) + 4 * u64::from(word.number) + 262_144 * u64::from(word.generation)
}

impl Table {
    fn load(&self, who: &mut Caller, number: u16) -> Option<(usize, u32)> {
        let row = who.owned.iter().position(|w| !w.live && w.generation < u32::MAX)?;
        let word = HandleWord { generation: who.owned[row].generation + 1, number, live: true };
        self.words[self.handles_at + row].store(pack(word), SeqCst);
        who.owned[row] = word;
        Some((row, word.generation))
    }

    fn retire(&self, who: &mut Caller, row: u16) {
        let epoch = self.words[0].load(SeqCst);
        who.limbo.push((row, epoch));
        let _ = self.words[0].compare_exchange(epoch, epoch + 1, SeqCst, SeqCst);
    }

    fn is_due(&self, who: &Caller, row: u64, packed: u64) -> bool {
        self.words[self.rows_at + 4 * row as usize + 1].load(SeqCst) == packed && who.limbo.len() <= 14
    }

    fn sweep(&self, who: &mut Caller) {
        let Some(&(row, epoch)) = who.limbo.first() else {
            return;
        };
        for caller in 0..self.callers {
            let word = self.words[1 + caller].load(SeqCst);
            if word != 0 && word < epoch + 2 {
                return;
            }
        }
        self.words[self.rows_at + 4 * usize::from(row)].store(0, SeqCst);
        who.limbo.remove(0);
    }

    fn unload(&self, who: &mut Caller, row: usize, generation: u32) {
        let packed = row as u64 + 32_768 * u64::from(generation);
        let epoch = self.words[0].load(SeqCst);
        self.words[1].store(epoch + 1, SeqCst);
        let word = HandleWord { live: false, ..who.owned[row] };
        self.words[self.handles_at + row].store(pack(word), SeqCst);
        who.owned[row] = word;
        for place in &self.words[self.cells_at..self.cells_at + self.sites] {
            let cell = place.load(SeqCst);
            if cell >= 2 && self.is_due(who, cell - 2, packed) && place.compare_exchange(cell, 0, SeqCst, SeqCst).is_ok() {
                self.retire(who, (cell - 2) as u16);
            }
        }
        for place in &self.words[self.buckets_at..self.buckets_at + self.buckets] {
            let named = place.load(SeqCst);
            if named != 0 && self.is_due(who, named - 1, packed) {
                let out = place.swap(0, SeqCst);
                if out != 0 {
                    self.retire(who, (out - 1) as u16);
                }
            }
        }
        self.words[1].store(0, SeqCst);
        self.sweep(who);
    }
}

fn main() {
    let rounds: u32 = std::env::args().nth(1).and_then(|word| word.parse().ok()).unwrap_or(1);
    let table = open(black_box(1), black_box(1), black_box(256), black_box(64), black_box(256));
    let blank = HandleWord { generation: 0, number: 0, live: false };
    let mut who = Caller { owned: [blank; OWN], limbo: Vec::with_capacity(16) };
    let mut last = 0;
    for _ in 0..rounds {
        let Some((row, generation)) = table.load(&mut who, 0) else {
            return;
        };
        table.unload(&mut who, row, generation);
        last = generation;
    }
    println!("{last}");
}
