//! The speed of the archive's calls beside plain Rust that does the same steps on the same input.
//!
//! `cargo run --release --example bench -- [--quick] [PART]`, where PART selects the cases with PART in their name. Where the environment variable
//! LIPVEZOR_EARLIER names a folder with the archive of an earlier version, that is measured too.
//!
//! The linker puts the archive's functions on borders of 16 bytes. Short loops can be a quarter slower where that makes them cross a border of 64, so
//! code that is the same in both archives can have a gain other than 1.00 (write at W 1,024), another one after each build.
mod blocks;
mod buffer;
#[cfg(earlier)]
mod earlier;
#[cfg(not(earlier))]
mod earlier {
    pub fn has(_: lipvezor::Record) -> bool {
        false
    }
}
mod layers;
mod measure;
mod plain_close;
mod plain_encode;
mod plain_gather;
mod plain_rows;
mod plain_tables;
mod plain_tiles;
mod plain_units;
#[path = "../../support/random.rs"]
mod random;
mod simple_close;
#[path = "../../support/tables.rs"]
mod tables;

use blocks::{close, encode, open, pack, record, seed, take, write, Receiving, Sending, Taking, Tiles, Units};
#[cfg(earlier)]
use earlier::Earlier;
use layers::{Ours, Plain, Simple};
use lipvezor::{Code, Record};
use measure::{cold, median, order, rounds, time, Side};
use random::Random;
use std::time::{Duration, Instant};

/// Patterns of a case of close in which row additions are counted, and which are also closed with one heard byte wrong, to compare.
const COUNTED: usize = 8;
/// Bytes that the blocks of a cold case have together: more than twice a large cache.
const COLD: usize = 640 << 20;
/// How much of m is missing in the cases of close, in percent.
const MISSING: [usize; 6] = [0, 10, 50, 90, 97, 120];

/// How much of m is missing in the cases of close of short blocks, in percent.
const MISSING_SHORT: [usize; 3] = [0, 10, 50];

/// A record's run by each layer: ours, plain Rust's and, if there is one that has such blocks, the earlier archive's. One more side may come last.
macro_rules! sides {
    ($record:expr, $run:ident $(, $more:expr)?) => {
        Vec::from_iter([
            Some($run::<Ours> as Side<_>),
            Some($run::<Plain>),
            #[cfg(earlier)]
            earlier::has($record).then_some($run::<Earlier>),
            $(Some($more))?
        ].into_iter().flatten())
    };
}

/// A case's result: how much in a second by each side.
struct Line {
    name: String,
    unit: &'static str,
    ours: f64,
    rust: f64,
    earlier: Option<f64>,
    simple: Option<f64>,
}

/// In hundredths, as printed.
fn hundredths(x: f64) -> f64 {
    (x * 100.0).round() / 100.0
}

impl Line {
    /// From how much one run does, in the unit, and the seconds for it of each of the record's sides.
    fn new(record: Record, name: String, unit: &'static str, amount: f64, seconds: &[f64]) -> Line {
        let speed = |side: usize| seconds.get(side).map(|seconds| amount / seconds);
        let (earlier, simple) = if earlier::has(record) { (speed(2), speed(3)) } else { (None, speed(2)) };
        Line { name, unit, ours: amount / seconds[0], rust: amount / seconds[1], earlier, simple }
    }

    /// Ours to plain Rust's.
    fn ratio(&self) -> f64 {
        hundredths(self.ours / self.rust)
    }

    /// Ours to the earlier archive's.
    fn gain(&self) -> Option<f64> {
        self.earlier.map(|earlier| hundredths(self.ours / earlier))
    }

    fn print(&self, more: &str) {
        let mut line =
            format!("bench {} ours={:.1} rust={:.1} ratio={:.2} unit={}", self.name, self.ours, self.rust, self.ratio(), self.unit);
        if let (Some(earlier), Some(gain)) = (self.earlier, self.gain()) {
            line += &format!(" earlier={earlier:.1} gain={gain:.2}");
        }
        if let Some(simple) = self.simple {
            line += &format!(" simple={simple:.1}");
        }
        println!("{line}{more}");
    }
}

/// The row additions of plain Rust's elimination and of the simple one, on a block that was just heard.
fn count_additions(block: &mut Receiving, record: Record, hear: impl Fn(&mut Receiving)) -> [usize; 2] {
    let mut additions = [0, 0];
    hear(block);
    let b = &mut *block;
    plain_close::close(record, &mut b.symbols, &mut b.marks, &mut b.words, &mut b.bytes, &mut additions[0]).unwrap();
    hear(block);
    let b = &mut *block;
    simple_close::close(record, &mut b.symbols, &mut b.marks, &mut b.words, &mut b.bytes, &mut additions[1]).unwrap();
    additions
}

struct Bench {
    /// The time of a side in a case.
    each: Duration,
    /// Rounds of a case at least, and at most where each has a pattern of its own.
    rounds: [usize; 2],
    part: String,
    lines: Vec<Line>,
}

impl Bench {
    fn wants(&self, name: &str) -> bool {
        name.contains(&self.part)
    }

    fn line(&mut self, line: Line, more: &str) {
        line.print(more);
        self.lines.push(line);
    }

    /// Every side must come to the same result.
    fn agree<S, R: PartialEq>(name: &str, state: &mut S, before: impl Fn(&mut S), sides: &[Side<S>], result: impl Fn(&S) -> R) {
        let mut results = sides.iter().map(|side| {
            before(state);
            side(state);
            result(state)
        });
        let first = results.next().unwrap();
        assert!(results.all(|other| other == first), "{name}: the sides differ");
    }

    /// So many tiles of so many bytes each, packed into a block. No earlier archive packs.
    fn packing(&mut self, record: Record, count: usize, length: usize) {
        let name = format!("pack/{}/W{}/{count}x{length}", record.code(), record.w());
        if !self.wants(&name) {
            return;
        }
        let tiles = &mut Tiles::new(record, count, length);
        let sides = &[pack::<Ours> as Side<_>, pack::<Plain>];
        Bench::agree(&name, tiles, |t| t.information.fill(0xA5), sides, |t| t.information.to_vec());
        let seconds = rounds(tiles, self.each, self.rounds[0], None, sides);
        self.line(Line::new(record, name, "MB/s", tiles.megabytes(), &seconds), "");
    }

    /// Each side's seconds for an encode.
    fn encode_seconds(&self, name: &str, sent: &mut Sending) -> Vec<f64> {
        let sides = &sides!(sent.record, encode);
        Bench::agree(name, sent, |s| s.parity.fill(0xA5), sides, |s| s.parity.to_vec());
        rounds(sent, self.each, self.rounds[0], None, sides)
    }

    fn encoding(&mut self, sent: &mut Sending) {
        let record = sent.record;
        let name = format!("encode/{}/W{}", record.code(), record.w());
        if !self.wants(&name) {
            return;
        }
        let seconds = self.encode_seconds(&name, sent);
        self.line(Line::new(record, name, "MB/s", sent.megabytes(), &seconds), "");
    }

    /// Units one after the other, or each on a border of so many bytes.
    fn writing(&mut self, record: Record, border: usize) {
        let code = record.code();
        let place = if border > 1 { format!("/on{border}") } else { String::new() };
        let name = format!("write/{code}/W{}{place}", record.w());
        if !self.wants(&name) {
            return;
        }
        let units = &mut Units::new(&Sending::new(record), border);
        let sides = &sides!(record, write);
        Bench::agree(&name, units, |u| u.bytes.fill(0xA5), sides, |u| u.bytes.to_vec());
        let seconds = rounds(units, self.each, self.rounds[0], None, sides);
        self.line(Line::new(record, name, "Munits/s", record.n() as f64 / 1e6, &seconds), "");
    }

    fn taking(&mut self, sent: &Sending) {
        let record = sent.record;
        let name = format!("take/{}/W{}", record.code(), record.w());
        if !self.wants(&name) {
            return;
        }
        let taking = &mut Taking::new(sent);
        let sides = &sides!(record, take);
        Bench::agree(&name, taking, open, sides, |t| (t.block.symbols.to_vec(), t.block.marks.to_vec()));
        let seconds = rounds(taking, self.each, self.rounds[0], Some(open), sides);
        self.line(Line::new(record, name, "MB/s", sent.megabytes(), &seconds), "");
    }

    fn closing(&mut self, sent: &Sending, percent: usize) {
        let record = sent.record;
        let name = format!("close/{}/W{}/{percent}%", record.code(), record.w());
        if !self.wants(&name) {
            return;
        }
        let (seconds, more) = self.close_seconds(&name, sent, percent);
        self.line(Line::new(record, name, "MB/s", sent.megabytes(), &seconds), &more);
    }

    /// Each side's seconds for a close, and what else is to be said. Each round has a loss pattern that none had before, among what is sent, and
    /// every side closes it once.
    fn close_seconds(&self, name: &str, sent: &Sending, percent: usize) -> (Vec<f64>, String) {
        let (record, word) = (sent.record, sent.word());
        let (code, w) = (record.code(), record.w());
        let missing = (code.m() * percent + 50) / 100;
        let block = &mut Receiving::new(record);
        let sides = &sides!(record, close, close::<Simple>);
        let mut random = Random::new(seed(record) * 1000 + percent as u64);
        let mut times = vec![Vec::new(); sides.len()];
        let mut additions = [0, 0];
        let outcome = |b: &Receiving| (b.found, b.symbols.to_vec(), b.marks.to_vec(), b.work_is_zero());
        let start = Instant::now();
        let [least, most] = self.rounds;
        for round in 0..most {
            if round >= least && start.elapsed() >= self.each * sides.len() as u32 {
                break;
            }
            let pattern: Vec<usize> = random.shuffled(code.n()).into_iter().filter(|&position| !record.is_idle(position)).collect();
            let hear = |b: &mut Receiving| b.hear(&word, &pattern[..missing]);
            let mut first = None;
            for side in order(round, sides.len()) {
                hear(block);
                times[side].push(time(sides[side], block, 1));
                let outcome = outcome(block);
                assert!(outcome.3, "{name}: a work buffer isn't zero");
                assert!(*first.get_or_insert_with(|| outcome.clone()) == outcome, "{name}: the sides differ");
            }
            if round < COUNTED {
                let counted = count_additions(block, record, hear);
                additions = [additions[0] + counted[0], additions[1] + counted[1]];
                let wrong = pattern[missing] * w;
                let hear_wrong = |b: &mut Receiving| {
                    hear(b);
                    b.symbols[wrong] ^= 1;
                };
                Bench::agree(name, block, hear_wrong, sides, outcome);
            }
        }
        let patterns = times[0].len();
        let seconds: Vec<f64> = times.into_iter().map(median).collect();
        let [ours, simple] = additions.map(|count| count as f64 / COUNTED.min(patterns) as f64);
        (seconds, format!(" additions={ours:.0} simple_additions={simple:.0} patterns={patterns}"))
    }

    /// Blocks of these fills, of which the first is k: how many a second, and how long each takes beside a full one.
    fn short(&mut self, full: Record, fills: [usize; 3]) {
        let mut cases = vec![("encode".to_string(), None)];
        cases.extend(MISSING_SHORT.map(|percent| (format!("close/{percent}%"), Some(percent))));
        for (what, percent) in cases {
            let mut of_full: Option<Vec<f64>> = None;
            for fill in fills {
                let record = full.with_fill(fill);
                let name = format!("short/{what}/{}/W{}/fill{fill}", record.code(), record.w());
                if !self.wants(&name) {
                    continue;
                }
                let mut sent = Sending::new(record);
                let (seconds, more) = match percent {
                    None => (self.encode_seconds(&name, &mut sent), String::new()),
                    Some(percent) => self.close_seconds(&name, &sent, percent),
                };
                let times = of_full
                    .as_ref()
                    .map_or(String::new(), |full| format!(" time={:.2} rust_time={:.2}", seconds[0] / full[0], seconds[1] / full[1]));
                self.line(Line::new(record, name, "blocks/s", 1.0, &seconds), &format!("{times}{more}"));
                if fill == full.k() {
                    of_full = Some(seconds);
                }
            }
        }
    }

    fn encoding_cold(&mut self, sent: &Sending) {
        let record = sent.record;
        let name = format!("cold/encode/{}/W{}", record.code(), record.w());
        if !self.wants(&name) {
            return;
        }
        let mut blocks = vec![sent.clone(); COLD / (sent.information.len() + sent.parity.len())];
        let prepare = |s: &mut Sending, _: usize| {
            s.information.copy_from_slice(&sent.information);
            s.parity.fill(0xA5);
        };
        let seconds = cold(&mut blocks, self.rounds[0] * 4, prepare, &sides!(record, encode));
        self.line(Line::new(record, name, "MB/s", sent.megabytes(), &seconds), "");
    }

    fn closing_cold(&mut self, sent: &Sending) {
        let (record, word) = (sent.record, sent.word());
        let code = record.code();
        let name = |percent: usize| format!("cold/close/{code}/W{}/{percent}%", record.w());
        if !MISSING.iter().any(|&percent| self.wants(&name(percent))) {
            return;
        }
        let size = Receiving::new(record).size();
        let mut blocks: Vec<Receiving> = (0..COLD / size).map(|_| Receiving::new(record)).collect();
        for percent in MISSING {
            if !self.wants(&name(percent)) {
                continue;
            }
            let missing = (code.m() * percent + 50) / 100;
            let prepare =
                |b: &mut Receiving, i: usize| b.hear(&word, &Random::new((percent << 16 | i) as u64).shuffled(code.n())[..missing]);
            let most = self.rounds[0] * 4;
            let seconds = cold(&mut blocks, most, prepare, &sides!(record, close));
            let more = format!(" patterns={}", most.min(blocks.len()));
            self.line(Line::new(record, name(percent), "MB/s", sent.megabytes(), &seconds), &more);
        }
    }

    /// How many lines are below 1.00, and which, the least first.
    fn below(&self, what: &str, value: impl Fn(&Line) -> Option<f64>) -> String {
        let mut below: Vec<(f64, &str)> = Vec::new();
        let mut count = 0;
        for line in &self.lines {
            if let Some(value) = value(line) {
                count += 1;
                if value < 1.0 {
                    below.push((value, &line.name));
                }
            }
        }
        below.sort_by(|a, b| a.0.total_cmp(&b.0));
        let list: Vec<String> = below.iter().map(|(value, name)| format!("{name} {value:.2}")).collect();
        format!("{what} below 1.00: {} of {count}{}{}", below.len(), if below.is_empty() { "" } else { ": " }, list.join(", "))
    }

    fn summary(&self) {
        let mut goals = self.below("ratio", |line| Some(line.ratio()));
        if cfg!(earlier) {
            goals += &format!("; {}", self.below("gain", Line::gain));
        }
        for line in &self.lines {
            if line.name == "close/C2/W1024/90%" {
                goals += &format!("; {} {:.0} MB/s, goal 500", line.name, line.ours);
            }
            if let Some(simple) = line.simple.filter(|_| line.name.starts_with("close/C2/") && line.name.ends_with("/90%")) {
                goals += &format!("; {} {:.2} times simple, goal 2.5", line.name, line.ours / simple);
            }
        }
        println!("goals {goals}");
    }
}

fn main() {
    let mut bench = Bench { each: Duration::from_millis(600), rounds: [41, 401], part: String::new(), lines: Vec::new() };
    for argument in std::env::args().skip(1) {
        match argument.as_str() {
            "--quick" => (bench.each, bench.rounds) = (Duration::from_millis(50), [5, 41]),
            part => bench.part = part.to_string(),
        }
    }
    let profile = if cfg!(debug_assertions) { "debug (not for comparison)" } else { "release, opt-level 3" };
    println!("plain Rust: {profile}, no unsafe code.");
    println!(
        "The sides run in turn, {} ms each in a case; a side's speed is the median of its rounds, at least {}.",
        bench.each.as_millis(),
        bench.rounds[0]
    );
    println!("Time in which other work had the processor isn't counted.");
    println!("pack: so many tiles of so many bytes each, into a full block that holds what was packed before; 1 MB = 10^6 bytes of tiles.");
    println!("1 MB = 10^6 bytes of information; 1 Munits = 10^6 units, one after the other in one buffer, or each on a border of 16 bytes (on16).");
    println!(
        "close: so much of m is missing. Each round has a loss pattern that none had before; each side closes it once, and all must leave the same."
    );
    println!("  The block and the work buffers were written just before. simple: least-weight Gauss-Jordan; additions: of rows, in the elimination.");
    println!(
        "cold: nothing that a run is handed is in a cache. It has a block and work buffers of its own, and {} MB of others",
        COLD >> 20
    );
    println!("  were written since these were.");
    println!("short: blocks of which fill information symbols are sent; so much of m is missing among all that are sent. time: beside a full block.");
    #[cfg(earlier)]
    println!("earlier: the archive of version {}, where that has such blocks; gain: ours to it.", earlier::version());
    for code in [Code::C1, Code::C2] {
        for w in [16, 64, 1024] {
            let (record, payload) = (record(code, w), w - 4);
            // One in all rows; and each in three rows and a byte of the fourth.
            bench.packing(record, 1, record.k() * payload);
            bench.packing(record, record.k() / 4, 3 * payload + 1);
        }
    }
    for &code in Code::ALL {
        let widths = if [Code::C1, Code::C2].contains(&code) { &[1, 16, 64, 1024][..] } else { &[16, 1024] };
        for (w, border) in [(1, 1), (16, 1), (1024, 1), (1024, 16)] {
            if widths.contains(&w) {
                bench.writing(record(code, w), border);
            }
        }
        for &w in widths {
            let mut sent = Sending::new(record(code, w));
            bench.encoding(&mut sent);
            bench.taking(&sent);
            for percent in MISSING {
                bench.closing(&sent, percent);
            }
        }
    }
    for w in [16, 1024] {
        let sent = Sending::new(record(Code::C2, w));
        bench.encoding_cold(&sent);
        bench.closing_cold(&sent);
    }
    let full = record(Code::C2, 1024);
    bench.short(full, [full.k(), full.k() / 2, full.k() / 8]);
    bench.summary();
}
