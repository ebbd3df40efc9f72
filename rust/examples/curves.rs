//! How often a block does not close whole, by the share of units lost, for all codes on an uncorrelated erasure channel, beside the Singleton
//! bounds: figures E-3 and E-4 of CCSDS 131.5-O-1, one for each k. Writes curves.csv, curves-k512.svg and curves-k2048.svg.
//!
//! `cargo run --release --example curves -- [--scale X] [FOLDER]`, where X multiplies the most blocks of a point, and FOLDER is `docs` of this
//! repository unless given. The same X gives the same files on every machine.
#[path = "../support/random.rs"]
mod random;

use lipvezor::calls::{self, Buffers};
use lipvezor::{Code, Codeword, Record, Taken, Verdict};
use random::Random;
use std::fmt::Write as _;
use std::io::IsTerminal;
use std::path::PathBuf;
use std::time::Instant;

/// A point stops after the batch that brings it to so many failed blocks, or at its most blocks.
const ENOUGH: usize = 100;
/// Blocks of a batch. They carry the same information.
const BATCH: usize = 250;
/// Bytes of a symbol: what is lost doesn't depend on it.
const W: usize = 1;

/// What is measured of a code: shares of units lost, in thousandths.
struct Plan {
    code: Code,
    from: usize,
    to: usize,
    step: usize,
}

/// The codes with the same k, which share a picture, and the most blocks of a point.
struct Group {
    most: usize,
    plans: [Plan; 3],
}

const GROUPS: [Group; 2] = [
    Group {
        most: 500_000,
        plans: [
            Plan { code: Code::C1, from: 240, to: 370, step: 10 },
            Plan { code: Code::C4, from: 120, to: 230, step: 10 },
            Plan { code: Code::C7, from: 50, to: 140, step: 5 },
        ],
    },
    Group {
        most: 20_000,
        plans: [
            Plan { code: Code::C2, from: 285, to: 350, step: 5 },
            Plan { code: Code::C5, from: 160, to: 215, step: 5 },
            Plan { code: Code::C8, from: 80, to: 125, step: 5 },
        ],
    },
];

impl Plan {
    /// The shares of its points, in thousandths.
    fn points(&self) -> impl Iterator<Item = usize> {
        (self.from..=self.to).step_by(self.step)
    }
}

struct Point {
    lost: f64,
    blocks: usize,
    failed: usize,
}

impl Point {
    fn rate(&self) -> f64 {
        self.failed as f64 / self.blocks as f64
    }

    /// The 95 % confidence interval of the rate (Wilson's).
    fn interval(&self) -> (f64, f64) {
        let (n, p, z2) = (self.blocks as f64, self.rate(), 1.96 * 1.96);
        let middle = p + z2 / (2.0 * n);
        let half = (z2 * (p * (1.0 - p) / n + z2 / (4.0 * n * n))).sqrt();
        let low = if self.failed == 0 { 0.0 } else { (middle - half) / (1.0 + z2 / n) };
        let high = if self.failed == self.blocks { 1.0 } else { (middle + half) / (1.0 + z2 / n) };
        (low, high)
    }
}

/// The Singleton bound: the probability that more than n - k of n symbols are lost.
fn singleton(code: Code, lost: f64) -> f64 {
    let (n, k) = (code.n(), code.k());
    let mut logarithm = n as f64 * (1.0 - lost).ln(); // of C(n, i) e^i (1 - e)^(n - i), here for i = 0
    let mut sum = 0.0;
    for i in 1..=n {
        logarithm += ((n - i + 1) as f64 / i as f64).ln() + (lost / (1.0 - lost)).ln();
        if i > n - k {
            sum += logarithm.exp();
        }
    }
    sum
}

/// A codeword's symbols and its units.
struct Sent {
    codeword: Vec<u8>,
    units: Vec<u8>,
}

fn send(record: Record, random: &mut Random) -> Sent {
    let mut information = vec![0; record.information_bytes()];
    random.fill(&mut information);
    let word = Codeword::encode(record, information).unwrap();
    Sent { codeword: [word.information(), word.parity()].concat(), units: word.units().unwrap().flatten().collect() }
}

/// How many of the blocks, each with its own random numbers, aren't whole after close.
fn failures(record: Record, lost: f64, sent: &Sent, blocks: impl Iterator<Item = Random>) -> usize {
    let mut symbols = vec![0; record.symbol_bytes()];
    let mut marks = vec![0; record.n()];
    let mut words = vec![0; record.work_words()];
    let mut bytes = vec![0; record.work_bytes()];
    let mut failed = 0;
    for mut random in blocks {
        let mut buffers = Buffers::new(&mut symbols, &mut marks);
        calls::open(&record, &mut buffers).unwrap();
        for unit in sent.units.chunks_exact(record.unit_bytes()) {
            if !random.chance(lost) {
                assert_eq!(calls::take(&record, &mut buffers, unit), Ok(Taken::Kept));
            }
        }
        match calls::close(&record, &mut buffers, &mut words, &mut bytes).unwrap().verdict {
            Verdict::Whole => assert!(symbols == sent.codeword),
            Verdict::Ambiguous => failed += 1,
            verdict => panic!("{verdict:?} of what was sent"),
        }
    }
    failed
}

/// One point of a code's curve. `progress` hears which part of it is done.
fn measure(code: Code, thousandths: usize, most: usize, progress: impl Fn(f64)) -> Point {
    let record = Record::new(code, W);
    let lost = thousandths as f64 / 1000.0;
    let threads = std::thread::available_parallelism().map_or(1, |n| n.get()).min(2);
    let mut point = Point { lost, blocks: 0, failed: 0 };
    let mut seeds = Random::new((code.number() * 1000 + thousandths) as u64);
    while point.failed < ENOUGH && point.blocks < most {
        progress((point.failed as f64 / ENOUGH as f64).max(point.blocks as f64 / most as f64));
        let sent = send(record, &mut seeds);
        let batch: Vec<u64> = (0..BATCH.min(most - point.blocks)).map(|_| seeds.next()).collect();
        point.failed += std::thread::scope(|scope| {
            let sent = &sent;
            let parts = batch.chunks(batch.len().div_ceil(threads));
            let parts = parts.map(|part| scope.spawn(move || failures(record, lost, sent, part.iter().map(|&seed| Random::new(seed)))));
            let parts: Vec<_> = parts.collect();
            parts.into_iter().map(|part| part.join().unwrap()).sum::<usize>()
        });
        point.blocks += batch.len();
    }
    point
}

/// 12345 as 12,345.
fn grouped(x: usize) -> String {
    let digits = x.to_string();
    let mut text = String::new();
    for (i, digit) in digits.chars().enumerate() {
        if i > 0 && (digits.len() - i) % 3 == 0 {
            text.push(',');
        }
        text.push(digit);
    }
    text
}

const WIDTH: f64 = 900.0;
const HEIGHT: f64 = 712.0;
const LEFT: f64 = 84.0;
const RIGHT: f64 = 876.0;
const TOP: f64 = 48.0;
/// Where the share of blocks is 1: below the top, so that the codes' names have room above it.
const ONE: f64 = 76.0;
const BOTTOM: f64 = 552.0;
/// Half of a cap.
const CAP: f64 = 4.0;
const BLACK: &str = "#222";
/// Those of a group's codes.
const COLOURS: [&str; 3] = ["#0f5fa8", "#00785a", "#b3400f"];
/// Thousandths between two lines of the x axis.
const TICK: usize = 20;

/// What was measured of a code, and how it is drawn.
struct Curve<'a> {
    plan: &'a Plan,
    points: Vec<Point>,
    colour: &'static str,
}

/// A group's picture. The x axis goes between two shares, in thousandths, and the y axis from 10^-decades to 1.
struct Picture {
    from: usize,
    to: usize,
    decades: i32,
    text: String,
}

impl Picture {
    fn x(&self, lost: f64) -> f64 {
        LEFT + (lost * 1000.0 - self.from as f64) / (self.to - self.from) as f64 * (RIGHT - LEFT)
    }

    fn y(&self, rate: f64) -> f64 {
        ONE - rate.log10() / self.decades as f64 * (BOTTOM - ONE)
    }

    fn put(&mut self, element: std::fmt::Arguments) {
        self.text.write_fmt(element).unwrap();
        self.text.push('\n');
    }

    fn line(&mut self, from: (f64, f64), to: (f64, f64), style: &str) {
        self.put(format_args!("<line x1=\"{:.1}\" y1=\"{:.1}\" x2=\"{:.1}\" y2=\"{:.1}\" {style}/>", from.0, from.1, to.0, to.1));
    }

    fn path(&mut self, points: &[(f64, f64)], style: &str) {
        let points: Vec<String> = points.iter().map(|(x, y)| format!("{x:.1},{y:.1}")).collect();
        self.put(format_args!("<polyline points=\"{}\" fill=\"none\" {style}/>", points.join(" ")));
    }

    fn write(&mut self, (x, y): (f64, f64), style: &str, words: &str) {
        self.put(format_args!("<text x=\"{x:.1}\" y=\"{y:.1}\" {style}>{words}</text>"));
    }

    /// The grid, with its numbers and the titles.
    fn axes(&mut self, title: &str) {
        for decade in 0..=self.decades {
            let one = 10f64.powi(-decade);
            let y = self.y(one);
            self.line((LEFT, y), (RIGHT, y), "stroke=\"#bbb\"");
            let number = if decade == 0 { "1".into() } else { format!("10<tspan dy=\"-6\" font-size=\"10\">−{decade}</tspan>") };
            self.write((LEFT - 10.0, y + 5.0), "text-anchor=\"end\"", &number);
            for part in 2..10 {
                let y = self.y(one * part as f64 / 10.0);
                if decade < self.decades {
                    self.line((LEFT, y), (RIGHT, y), "stroke=\"#eee\"");
                }
            }
        }
        for thousandths in (self.from..=self.to).step_by(TICK) {
            let share = thousandths as f64 / 1000.0;
            let x = self.x(share);
            self.line((x, TOP), (x, BOTTOM), "stroke=\"#ddd\"");
            self.write((x, BOTTOM + 20.0), "text-anchor=\"middle\"", &format!("{share:.2}"));
        }
        let (width, height) = (RIGHT - LEFT, BOTTOM - TOP);
        self.put(format_args!("<rect x=\"{LEFT}\" y=\"{TOP}\" width=\"{width}\" height=\"{height}\" fill=\"none\" stroke=\"{BLACK}\"/>"));
        let middle = (LEFT + RIGHT) / 2.0;
        self.write((middle, 30.0), "text-anchor=\"middle\" font-size=\"16\"", title);
        self.write((middle, BOTTOM + 44.0), "text-anchor=\"middle\" font-size=\"14\"", "share of units lost");
        self.put(format_args!(
            "<text transform=\"translate(28 {}) rotate(-90)\" text-anchor=\"middle\" font-size=\"14\">share of blocks that do not close whole</text>",
            (TOP + BOTTOM) / 2.0
        ));
    }

    fn bound(&mut self, curve: &Curve) {
        let Plan { code, from, to, step } = *curve.plan;
        let shares = (0..=200).map(|i| ((from - step) as f64 + (to - from + step) as f64 * i as f64 / 200.0) / 1000.0);
        let bounds = shares.map(|share| (share, singleton(code, share))).filter(|&(_, bound)| bound >= 10f64.powi(-self.decades));
        let bounds: Vec<(f64, f64)> = bounds.map(|(share, bound)| (self.x(share), self.y(bound))).collect();
        self.path(&bounds, &dashed(curve.colour));
    }

    /// A vertical bar with a cap at each end.
    fn bar(&mut self, x: f64, high: f64, low: f64, colour: &str) {
        self.path(&[(x - CAP, high), (x + CAP, high), (x, high), (x, low), (x - CAP, low), (x + CAP, low)], &solid(colour));
    }

    /// A cap at an upper limit, and an arrow down from it.
    fn arrow(&mut self, x: f64, high: f64, length: f64, colour: &str) {
        let end = high + length;
        self.path(&[(x - CAP, high), (x + CAP, high), (x, high), (x, end)], &solid(colour));
        self.path(&[(x - CAP, end - 7.0), (x, end), (x + CAP, end - 7.0)], &solid(colour));
    }

    fn dot(&mut self, x: f64, y: f64, colour: &str) {
        self.put(format_args!("<circle cx=\"{x:.1}\" cy=\"{y:.1}\" r=\"2.5\" fill=\"{colour}\"/>"));
    }

    /// The rates with their intervals, and the code's name above the last of them.
    fn rates(&mut self, curve: &Curve) {
        let colour = curve.colour;
        let seen = curve.points.iter().filter(|point| point.failed > 0);
        let line: Vec<(f64, f64)> = seen.map(|point| (self.x(point.lost), self.y(point.rate()))).collect();
        self.path(&line, &faint(colour));
        for point in &curve.points {
            let (low, high) = point.interval();
            let (x, high) = (self.x(point.lost), self.y(high));
            if point.failed == 0 {
                self.arrow(x, high, 24.0, colour);
            } else {
                self.bar(x, high, self.y(low), colour);
                self.dot(x, self.y(point.rate()), colour);
            }
        }
        let at = (self.x(curve.plan.to as f64 / 1000.0) + CAP, ONE - 10.0);
        let code = curve.plan.code;
        self.write(at, &format!("text-anchor=\"end\" fill=\"{colour}\" font-weight=\"bold\""), &format!("{code}, n = {}", code.n()));
    }

    /// What the lines and marks mean, whatever their colour.
    fn legend(&mut self) {
        let y = BOTTOM + 76.0;
        let mut x = LEFT;
        self.line((x, y), (x + 50.0, y), &faint(BLACK));
        self.bar(x + 25.0, y - 9.0, y + 9.0, BLACK);
        self.dot(x + 25.0, y, BLACK);
        self.write((x + 60.0, y + 5.0), "", "measured, with 95 % interval");
        x += 268.0;
        self.arrow(x + 5.0, y - 10.0, 20.0, BLACK);
        self.write((x + 20.0, y + 5.0), "", "no block failed: upper end of the interval");
        x += 310.0;
        self.line((x, y), (x + 50.0, y), &dashed(BLACK));
        self.write((x + 60.0, y + 5.0), "", "Singleton bound");
    }
}

fn solid(colour: &str) -> String {
    format!("stroke=\"{colour}\" stroke-width=\"1.5\"")
}

fn faint(colour: &str) -> String {
    solid(colour) + " stroke-opacity=\"0.6\""
}

fn dashed(colour: &str) -> String {
    solid(colour) + " stroke-dasharray=\"7 5\""
}

fn svg(curves: &[Curve], most: usize) -> String {
    let lows = curves.iter().flat_map(|curve| &curve.points).map(|point| point.interval().0);
    let lowest = lows.filter(|&low| low > 0.0).fold(0.1, f64::min);
    let first = curves.iter().map(|curve| curve.plan.from).min().unwrap();
    let last = curves.iter().map(|curve| curve.plan.to).max().unwrap();
    let mut picture = Picture {
        from: (first - 5) / TICK * TICK,
        to: (last + 5).next_multiple_of(TICK),
        decades: -lowest.log10().floor() as i32,
        text: String::new(),
    };
    picture.put(format_args!(
        "<svg xmlns=\"http://www.w3.org/2000/svg\" viewBox=\"0 0 {WIDTH} {HEIGHT}\" width=\"{WIDTH}\" height=\"{HEIGHT}\" font-family=\"sans-serif\" \
         font-size=\"13\" fill=\"{BLACK}\">"
    ));
    picture.put(format_args!("<rect width=\"{WIDTH}\" height=\"{HEIGHT}\" fill=\"#fff\"/>"));
    let lengths: Vec<String> = curves.iter().rev().map(|curve| curve.plan.code.n().to_string()).collect();
    let title =
        format!("k = {}, n = {}: blocks that do not close whole, by how many units are lost", curves[0].plan.code.k(), lengths.join(", "));
    picture.axes(&title);
    curves.iter().for_each(|curve| picture.bound(curve));
    curves.iter().for_each(|curve| picture.rates(curve));
    picture.legend();
    let caption = [
        "Each unit is lost with the same probability, whatever else is lost. A block fails if it is not whole after close.",
        &format!(
            "A point stops at {ENOUGH} failed blocks, in batches of {BATCH} blocks, or at {} blocks; curves.csv has the numbers.",
            grouped(most)
        ),
        "No code of the same n and k does better than the Singleton bound. Where no bar can be seen, the dot covers it.",
    ];
    for (i, words) in caption.iter().enumerate() {
        picture.write((LEFT, BOTTOM + 108.0 + 19.0 * i as f64), "font-size=\"12\"", words);
    }
    picture.put(format_args!("</svg>"));
    picture.text
}

fn main() -> std::io::Result<()> {
    let mut folder = PathBuf::from(env!("CARGO_MANIFEST_DIR")).join("../docs");
    let mut scale = 1.0;
    let mut arguments = std::env::args().skip(1);
    while let Some(argument) = arguments.next() {
        match argument.as_str() {
            "--scale" => scale = arguments.next().and_then(|x| x.parse().ok()).expect("--scale needs a number"),
            path => folder = PathBuf::from(path),
        }
    }
    let start = Instant::now();
    let terminal = std::io::stderr().is_terminal();
    let all: usize = GROUPS.iter().flat_map(|group| &group.plans).map(|plan| plan.points().count()).sum();
    let mut done = 0;
    let mut csv = String::from("code,share_of_units_lost,blocks,failed_blocks,share_of_blocks_failed,low_95,high_95,singleton_bound\n");
    for group in &GROUPS {
        let most = (group.most as f64 * scale) as usize;
        let mut curves = Vec::new();
        for (plan, colour) in group.plans.iter().zip(COLOURS) {
            let code = plan.code;
            let mut points = Vec::new();
            for thousandths in plan.points() {
                let share = thousandths as f64 / 1000.0;
                let point = measure(code, thousandths, most, |part| {
                    let percent = (done as f64 + part) / all as f64 * 100.0;
                    if terminal {
                        eprint!("\rcurves {percent:3.0} %  {code}  {share:.3} of the units lost ");
                    }
                });
                done += 1;
                eprintln!(
                    "{}curves {:3.0} %  {code}  {share:.3} of the units lost: {} of {} blocks failed",
                    if terminal { "\r" } else { "" },
                    done as f64 / all as f64 * 100.0,
                    point.failed,
                    grouped(point.blocks)
                );
                let (low, high) = point.interval();
                let (rate, bound) = (point.rate(), singleton(code, share));
                let _ = writeln!(csv, "{code},{share:.3},{},{},{rate:.4e},{low:.4e},{high:.4e},{bound:.4e}", point.blocks, point.failed);
                points.push(point);
            }
            curves.push(Curve { plan, points, colour });
        }
        std::fs::write(folder.join(format!("curves-k{}.svg", group.plans[0].code.k())), svg(&curves, most))?;
    }
    std::fs::write(folder.join("curves.csv"), csv)?;
    eprintln!("curves written to {} after {:.0} s", folder.display(), start.elapsed().as_secs_f64());
    Ok(())
}
