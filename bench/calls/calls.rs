// Calls and casts by hand, in plain Rust: the same protocol on plain atomics in the same layout, with the same answers, what
// the proved ones are measured against. Beside them a mutex and a read-write lock over a hash map, as one would write first.
// It is given what to make (cell, bucket, cast, mutex, rwlock, or spin: a loop without memory), how many threads, and how
// many each makes; it prints a sum of the targets and the nanoseconds of the whole. With --cfg unchecked no index is tested.
use std::collections::HashMap;
use std::sync::atomic::{AtomicU64, Ordering::SeqCst};
use std::sync::{Mutex, RwLock};
use std::time::Instant;

const SITES: usize = 4;
const TOKENS: usize = 1;
const ROWS: usize = 256;
const BUCKETS: usize = 256;
const HOSTS: usize = 32;
const REGIONS: u32 = 6;

struct Runtime {
    words: Vec<AtomicU64>,
    callers: usize,
    miss: u64,
    tokens: Vec<u16>,
    counts: usize,
    cells: usize,
    rows: usize,
    buckets: usize,
    handles: usize,
    region: usize,
    bucket_count: usize,
}

#[derive(Clone, Copy, PartialEq, Eq)]
struct Handle {
    row: u16,
    generation: u32,
}

impl Handle {
    fn pack(self) -> u64 {
        self.row as u64 + 32768 * self.generation as u64
    }

    fn unpack(word: u64) -> Handle {
        Handle { row: (word % 32768) as u16, generation: (word / 32768) as u32 }
    }
}

#[allow(dead_code)]
#[derive(Clone, Copy)]
enum CellWord {
    Lookup,
    Resolve,
    Dispatch(u16),
}

impl CellWord {
    fn unpack(word: u64) -> CellWord {
        match word {
            0 => CellWord::Lookup,
            1 => CellWord::Resolve,
            _ => CellWord::Dispatch((word - 2) as u16),
        }
    }
}

#[allow(dead_code)]
#[derive(Clone, Copy)]
struct Seen {
    cell: CellWord,
    expected: Option<Handle>,
    entry_handle: Option<Handle>,
    entry_token: Option<u16>,
}

#[allow(dead_code)]
#[derive(Clone, Copy)]
enum Path {
    Stub,
    Bucket,
    Walked(Seen),
}

#[allow(dead_code)]
#[derive(Clone, Copy)]
struct Answer {
    target: u32,
    path: Path,
}

#[allow(dead_code)]
#[derive(Clone, Copy)]
struct CastAnswer {
    yes: bool,
    walked: bool,
}

#[allow(dead_code)]
#[derive(Clone, Copy)]
struct Unloaded {
    handle: Handle,
    generation: u32,
    number: u16,
    immortal: bool,
    live: bool,
}

struct Caller {
    number: usize,
    cursor: usize,
    limbo: Vec<(usize, u64)>,
}

fn select(_number: u64, _token: u16) -> u32 {
    0
}

fn bucket_of(token: u16, h: Handle, buckets: usize) -> usize {
    let x = h.pack() + ((token as u64) << 48);
    ((x.wrapping_mul(11400714819323198485) >> 32) as usize) & (buckets - 1)
}

fn compat(_number: u64, _other: u64) -> bool {
    false
}

fn home_of(source: Handle, target: Handle, size: u32) -> u32 {
    let x = source.pack() ^ target.pack().rotate_left(17);
    ((x.wrapping_mul(11400714819323198485) >> 32) as u32) & (size - 1)
}

impl Runtime {
    fn start(callers: usize, miss: u64) -> (Runtime, Vec<Caller>) {
        let counts = 8 + 8 * callers;
        let cells = counts + TOKENS + 7;
        let rows = cells + SITES;
        let buckets = rows + 4 * ROWS;
        let handles = buckets + BUCKETS;
        let region = handles + HOSTS + 64 * callers;
        let end = region + 1 + 3 * 128 * ((1 << REGIONS) - 1);
        let words: Vec<AtomicU64> = (0..end).map(|_| AtomicU64::new(0)).collect();
        for host in 0..HOSTS {
            words[handles + host].store(3 + 4 * host as u64 + 262144, SeqCst);
        }
        let tokens = vec![0; SITES];
        // The sizes are known at run time alone.
        let bucket_count = std::hint::black_box(BUCKETS);
        let runtime =
            Runtime { words, callers, miss, tokens, counts, cells, rows, buckets, handles, region, bucket_count };
        let made = (0..callers)
            .map(|number| Caller { number, cursor: number * ROWS / callers, limbo: Vec::with_capacity(16) })
            .collect();
        (runtime, made)
    }

    #[cfg(not(unchecked))]
    fn word(&self, i: usize) -> &AtomicU64 {
        &self.words[i]
    }

    #[cfg(not(unchecked))]
    fn token(&self, site: u16) -> u16 {
        self.tokens[site as usize]
    }

    #[cfg(unchecked)]
    fn word(&self, i: usize) -> &AtomicU64 {
        unsafe { self.words.get_unchecked(i) }
    }

    #[cfg(unchecked)]
    fn token(&self, site: u16) -> u16 {
        unsafe { *self.tokens.get_unchecked(site as usize) }
    }

    fn load(&self, i: usize) -> u64 {
        self.word(i).load(SeqCst)
    }

    fn store(&self, i: usize, word: u64) {
        self.word(i).store(word, SeqCst)
    }

    fn exchange(&self, i: usize, old: u64, new: u64) -> bool {
        self.word(i).compare_exchange(old, new, SeqCst, SeqCst).is_ok()
    }

    fn call(&self, who: &mut Caller, site: u16, h: Handle) -> Result<Answer, Unloaded> {
        let token = self.token(site);
        let pin = 8 + 8 * who.number;
        let epoch = self.load(0);
        self.store(pin, epoch + 1);
        let cell = self.load(self.cells + site as usize);
        let answer = self.answer(who, site, token, h, cell);
        self.store(pin, 0);
        self.sweep(who);
        answer
    }

    fn answer(&self, who: &mut Caller, site: u16, token: u16, h: Handle, cell: u64) -> Result<Answer, Unloaded> {
        let mut expected = None;
        if cell >= 2 {
            let row = self.rows + 4 * (cell as usize - 2);
            let other = self.load(row + 1);
            if other == h.pack() {
                return Ok(Answer { target: self.load(row + 3) as u32, path: Path::Stub });
            }
            expected = Some(Handle::unpack(other));
            let count = self.word(self.counts + token as usize).fetch_add(1, SeqCst) + 1;
            if count >= self.miss
                && who.limbo.len() <= 14
                && self.exchange(self.cells + site as usize, cell, 1)
            {
                self.retire(who, cell as usize - 2);
            }
        }
        let mut seen = Seen { cell: CellWord::unpack(cell), expected, entry_handle: None, entry_token: None };
        let bucket = self.load(self.buckets + bucket_of(token, h, self.bucket_count));
        if bucket > 0 {
            let row = self.rows + 4 * (bucket as usize - 1);
            let handle = self.load(row + 1);
            let its_token = self.load(row + 2);
            if handle == h.pack() && its_token == token as u64 {
                let target = self.load(row + 3) as u32;
                self.install(who, site, token, h, cell, target);
                return Ok(Answer { target, path: Path::Bucket });
            }
            seen.entry_handle = Some(Handle::unpack(handle));
            seen.entry_token = Some(its_token as u16);
        }
        let target = select(self.type_of(h)?, token);
        if who.limbo.len() <= 14 {
            if let Some(row) = self.claim(who) {
                self.fill(row, h, token, target);
                let out = self.word(self.buckets + bucket_of(token, h, self.bucket_count)).swap(row as u64 + 1, SeqCst);
                if out > 0 {
                    self.retire(who, out as usize - 1);
                }
            }
        }
        self.install(who, site, token, h, cell, target);
        Ok(Answer { target, path: Path::Walked(seen) })
    }

    fn type_of(&self, h: Handle) -> Result<u64, Unloaded> {
        let word = self.load(self.handles + h.row as usize);
        let (live, immortal) = (word & 1 == 1, word & 2 == 2);
        let (generation, number) = ((word / 262144) as u32, (word / 4 % 65536) as u16);
        if live && generation == h.generation {
            Ok(number as u64)
        } else {
            Err(Unloaded { handle: h, generation, number, immortal, live })
        }
    }

    fn cast(&self, source: Handle, target: Handle) -> Result<CastAnswer, Unloaded> {
        let region = self.load(self.region) as u32;
        let size = 128u32 << region;
        let home = home_of(source, target, size);
        let mut versions = [0u64; 8];
        for i in 0..8 {
            let row = (home + i) & (size - 1);
            let at = self.cast_at(region, row);
            let version = self.load(at);
            let its_source = self.load(at + 1);
            let word = self.load(at + 2);
            let again = self.load(at);
            if version == again
                && version % 2 == 0
                && version != 0
                && its_source == source.pack()
                && word / 2 == target.pack()
            {
                return Ok(CastAnswer { yes: word % 2 == 1, walked: false });
            }
            versions[i as usize] = version;
        }
        let yes = compat(self.type_of(source)?, self.type_of(target)?);
        self.put(region, home, &versions, source, target, yes);
        Ok(CastAnswer { yes, walked: true })
    }

    fn cast_at(&self, region: u32, row: u32) -> usize {
        self.region + 1 + 3 * (128 * ((1usize << region) - 1) + row as usize)
    }

    fn put(&self, region: u32, home: u32, versions: &[u64; 8], source: Handle, target: Handle, yes: bool) {
        let unused = versions.iter().position(|&version| version == 0);
        if unused.is_none() && region + 1 < REGIONS {
            self.exchange(self.region, region as u64, region as u64 + 1);
            return;
        }
        let probe = unused.unwrap_or(((source.pack() + target.pack()) % 8) as usize);
        let version = versions[probe];
        if version % 2 == 1 || version == 1 << 62 {
            return;
        }
        let at = self.cast_at(region, (home + probe as u32) & ((128 << region) - 1));
        if self.exchange(at, version, version + 1) {
            self.store(at + 1, source.pack());
            self.store(at + 2, 2 * target.pack() + yes as u64);
            self.store(at, version + 2);
        }
    }

    fn install(&self, who: &mut Caller, site: u16, token: u16, h: Handle, cell: u64, target: u32) {
        if cell == 0 {
            if let Some(row) = self.claim(who) {
                self.fill(row, h, token, target);
                if !self.exchange(self.cells + site as usize, 0, row as u64 + 2) {
                    self.store(self.rows + 4 * row, 0);
                }
            }
        }
    }

    fn claim(&self, who: &mut Caller) -> Option<usize> {
        for _ in 0..ROWS.min(8) {
            let row = who.cursor;
            who.cursor = if row + 1 < ROWS { row + 1 } else { 0 };
            if self.load(self.rows + 4 * row) == 0 && self.exchange(self.rows + 4 * row, 0, 1) {
                return Some(row);
            }
        }
        None
    }

    fn fill(&self, row: usize, h: Handle, token: u16, target: u32) {
        self.store(self.rows + 4 * row + 1, h.pack());
        self.store(self.rows + 4 * row + 2, token as u64);
        self.store(self.rows + 4 * row + 3, target as u64);
    }

    fn retire(&self, who: &mut Caller, row: usize) {
        let epoch = self.load(0);
        who.limbo.push((row, epoch));
        if epoch < 1 << 62 {
            self.exchange(0, epoch, epoch + 1);
        }
    }

    fn sweep(&self, who: &mut Caller) {
        let Some(&(row, epoch)) = who.limbo.first() else {
            return;
        };
        for caller in 0..self.callers {
            let word = self.load(8 + 8 * caller);
            if word != 0 && word < epoch + 2 {
                return;
            }
        }
        self.store(self.rows + 4 * row, 0);
        who.limbo.remove(0);
    }
}

fn work(runtime: &Runtime, who: &mut Caller, handles: &[Handle; 2], calls: u64) -> u64 {
    let mut sum = 0u64;
    for i in 0..calls {
        let h = handles[(i & 1) as usize];
        if let Ok(answer) = runtime.call(who, 0, h) {
            sum = sum.wrapping_add(answer.target as u64 + 1);
        }
    }
    sum
}

fn work_casts(runtime: &Runtime, handles: &[Handle; 2], casts: u64) -> u64 {
    let mut sum = 0u64;
    for i in 0..casts {
        let source = handles[(i & 1) as usize];
        if let Ok(answer) = runtime.cast(source, handles[1]) {
            sum = sum.wrapping_add(answer.yes as u64 + 1);
        }
    }
    sum
}

fn by_table(kind: &str, threads: usize, calls: u64) -> (u64, u128) {
    let (runtime, mut callers) = Runtime::start(threads, 1);
    let a = Handle { row: 0, generation: 1 };
    let b = Handle { row: 1, generation: 1 };
    let handles = if kind == "cell" { [a, a] } else { [a, b] };
    if kind == "cast" {
        return casts(&runtime, &mut callers, &handles, calls);
    }
    work(&runtime, &mut callers[0], &handles, 16);
    let start = Instant::now();
    let sum = std::thread::scope(|s| {
        let runtime = &runtime;
        let handles = &handles;
        let all: Vec<_> = callers.iter_mut().map(|who| s.spawn(move || work(runtime, who, handles, calls))).collect();
        all.into_iter().map(|t| t.join().unwrap()).fold(0u64, |x, y| x.wrapping_add(y))
    });
    (sum, start.elapsed().as_nanos())
}

fn casts(runtime: &Runtime, callers: &mut [Caller], handles: &[Handle; 2], casts: u64) -> (u64, u128) {
    work_casts(runtime, handles, 16);
    let start = Instant::now();
    let sum = std::thread::scope(|s| {
        let all: Vec<_> = callers.iter().map(|_| s.spawn(move || work_casts(runtime, handles, casts))).collect();
        all.into_iter().map(|t| t.join().unwrap()).fold(0u64, |x, y| x.wrapping_add(y))
    });
    (sum, start.elapsed().as_nanos())
}

fn by_map(lock: &(dyn Fn(u16, u64) -> u32 + Sync), threads: usize, calls: u64) -> (u64, u128) {
    let start = Instant::now();
    let sum = std::thread::scope(|s| {
        let all: Vec<_> = (0..threads)
            .map(|_| s.spawn(move || (0..calls).fold(0u64, |sum, i| sum.wrapping_add(lock(0, 32768 + (i & 1)) as u64 + 1))))
            .collect();
        all.into_iter().map(|t| t.join().unwrap()).fold(0u64, |x, y| x.wrapping_add(y))
    });
    (sum, start.elapsed().as_nanos())
}

/// What the machine gives to threads that share nothing.
fn spin(threads: usize, turns: u64) -> (u64, u128) {
    let start = Instant::now();
    let all: Vec<_> = (0..threads as u64)
        .map(|x| std::thread::spawn(move || (0..turns * 8).fold(x, |x, i| (x ^ i).wrapping_mul(11400714819323198485))))
        .collect();
    let sum = all.into_iter().map(|t| t.join().unwrap()).fold(0u64, |x, y| x ^ y);
    (sum, start.elapsed().as_nanos())
}

fn main() {
    let words: Vec<String> = std::env::args().collect();
    let kind = words[1].as_str();
    let threads: usize = words[2].parse().unwrap();
    let calls: u64 = words[3].parse().unwrap();
    let mut map = HashMap::new();
    map.insert((0u16, 32768u64), 0u32);
    map.insert((0u16, 32769u64), 0u32);
    let (sum, time) = match kind {
        "mutex" => {
            let map = Mutex::new(map);
            by_map(&|token, h| *map.lock().unwrap().get(&(token, h)).unwrap(), threads, calls)
        }
        "rwlock" => {
            let map = RwLock::new(map);
            by_map(&|token, h| *map.read().unwrap().get(&(token, h)).unwrap(), threads, calls)
        }
        "spin" => spin(threads, calls),
        _ => by_table(kind, threads, calls),
    };
    println!("{sum} {time}");
}
