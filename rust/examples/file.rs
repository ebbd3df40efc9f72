//! A file there and back: cut into blocks, encoded, sent as units over a link that loses some and changes their order, and recovered.
//! `examples/file.c` does the same in C.
//!
//! All blocks are full but the last, which is as short as the rest of the file. The receiver knows the file's length, as from the plan of the
//! pass: the layer does not send it, and no unit carries the fill of its block, which follows from it. All else it learns from the units.
//!
//!     cargo run --release --example file -- [--loss 0.15] [--code 1] [--w 64] [--seed 1] [--out RECOVERED] [FILE]
//!
//! The code is named by its number, 1, 2, 4, 5, 7 or 8; a loss of 0.15 is too much for 7 and 8. Without FILE it sends a sample of 300,000 bytes.
//! It prints each unit that is refused and the verdict of each block. Exit status 0: every block is whole, and the file is as sent. 1: some block
//! is not whole; which ones is printed, and nothing is written. 2: something else went wrong.
#[path = "../support/random.rs"]
mod random;

use std::collections::BTreeMap;
use std::error::Error;
use std::fmt::Display;
use std::ops::Range;
use std::process::ExitCode;
use std::str::FromStr;

use lipvezor::{Code, Codeword, ReceiveError, Receiver, Record, Refusal, Report, Taken};
use random::Random;

const PROTOCOL: usize = 1;
const LAST_LSC: usize = 65_534;

/// Blocks whose units are under way at a time.
const TOGETHER: usize = 8;

// ---- what board and ground both know: how a file of this length is cut

/// The LSCs of the blocks of a file, by the code and W of one of them. Their information, one block after the other, is the file, then zeros to
/// the end of its last symbol.
fn lscs(file_length: usize, record: Record) -> Range<usize> {
    1..file_length.div_ceil(record.k() * record.w()) + 1
}

/// The information symbols of a block: k, and fewer of the last one; 0 of an LSC that is not the file's.
fn fill(file_length: usize, record: Record) -> usize {
    file_length.div_ceil(record.w()).saturating_sub((record.lsc() - 1) * record.k()).min(record.k())
}

// ---- options and files

struct Options {
    record: Record,
    loss: f64,
    seed: u64,
    out: Option<String>,
    file: Option<String>,
}

fn number<T: FromStr<Err: Display>>(option: &str, text: &str) -> Result<T, String> {
    text.parse().map_err(|why| format!("{option} {text}: {why}"))
}

fn share(option: &str, text: &str) -> Result<f64, String> {
    text.parse().ok().filter(|share| (0.0..=1.0).contains(share)).ok_or(format!("{option} {text}: not a number from 0 to 1"))
}

impl Options {
    fn read(mut words: impl Iterator<Item = String>) -> Result<Options, Box<dyn Error>> {
        let (mut code, mut w, mut loss, mut seed, mut out, mut file) = (Code::C1, 64, 0.15, 1, None, None);
        while let Some(word) = words.next() {
            let mut value = || words.next().ok_or(format!("{word} needs a value"));
            match &word[..] {
                "--loss" => loss = share(&word, &value()?)?,
                "--code" => code = Code::try_from(number::<usize>(&word, &value()?)?)?,
                "--w" => w = number(&word, &value()?)?,
                "--seed" => seed = number(&word, &value()?)?,
                "--out" => out = Some(value()?),
                option if option.starts_with('-') => return Err(format!("{option} is no option").into()),
                _ if file.is_some() => return Err(format!("{word}: one FILE only").into()),
                _ => file = Some(word),
            }
        }
        let record = Record::new(code, w).with_protocol(PROTOCOL);
        // the code is one, so it is W that is refused
        if record.information_bytes() == 0 {
            return Err(Refusal::Width.into());
        }
        Ok(Options { record, loss, seed, out, file })
    }

    /// The file's bytes, or the sample's.
    fn bytes(&self) -> Result<Vec<u8>, String> {
        match &self.file {
            Some(path) => std::fs::read(path).map_err(|why| format!("{path}: {why}")),
            None => {
                let mut sample = vec![0; 300_000];
                Random::new(0).fill(&mut sample);
                Ok(sample)
            }
        }
    }

    /// Writes the recovered file, if it is wanted.
    fn write(&self, recovered: &[u8]) -> Result<(), String> {
        self.out.as_ref().map_or(Ok(()), |path| std::fs::write(path, recovered).map_err(|why| format!("{path}: {why}")))
    }
}

// ---- on board

/// A file in blocks; LSC 1 is the first.
struct Board<'a> {
    record: Record,
    file: &'a [u8],
}

impl Board<'_> {
    fn new(record: Record, file: &[u8]) -> Result<Board<'_>, String> {
        if lscs(file.len(), record).len() > LAST_LSC {
            return Err(format!("the file needs more than {LAST_LSC} blocks: take a larger W, or C2, C5 or C8"));
        }
        Ok(Board { record, file })
    }

    fn lscs(&self) -> Range<usize> {
        lscs(self.file.len(), self.record)
    }

    fn codeword(&self, lsc: usize) -> Result<Codeword<Vec<u8>>, Refusal> {
        let record = self.record.with_lsc(lsc);
        let record = record.with_fill(fill(self.file.len(), record));
        let start = (lsc - 1) * self.record.information_bytes();
        let end = self.file.len().min(start + record.information_bytes());
        let mut information = self.file[start..end].to_vec();
        information.resize(record.information_bytes(), 0);
        Codeword::encode(record, information)
    }

    /// All units of the blocks of some LSCs.
    fn units(&self, lscs: &[usize]) -> Result<Vec<Vec<u8>>, Refusal> {
        let mut units = Vec::new();
        for &lsc in lscs {
            units.extend(self.codeword(lsc)?.units()?);
        }
        Ok(units)
    }
}

// ---- on the way

/// Some units are lost, the others come in any order.
fn downlink(mut units: Vec<Vec<u8>>, loss: f64, random: &mut Random) -> Vec<Vec<u8>> {
    let order = random.shuffled(units.len());
    order.into_iter().filter(|_| !random.chance(loss)).map(|i| std::mem::take(&mut units[i])).collect()
}

// ---- on the ground

#[derive(Default)]
struct Counts {
    kept: usize,
    repeated: usize,
    refused: usize,
}

/// Blocks that are open, and by LSC what was found of the closed ones, and the information of the whole ones.
struct Ground {
    file_length: usize,
    receiver: Receiver,
    counts: Counts,
    reports: BTreeMap<usize, (Record, Report)>,
    whole: BTreeMap<usize, Vec<u8>>,
}

impl Ground {
    fn new(file_length: usize) -> Result<Ground, Refusal> {
        let receiver = Receiver::new(PROTOCOL)?.with_limit(TOGETHER);
        Ok(Ground { file_length, receiver, counts: Counts::default(), reports: BTreeMap::new(), whole: BTreeMap::new() })
    }

    /// A unit that is refused counts as lost.
    fn take(&mut self, unit: &[u8]) -> Result<(), ReceiveError> {
        match self.receiver.take(unit) {
            Ok(received) => match received.taken {
                Taken::Kept => self.counts.kept += 1,
                Taken::Repeated => self.counts.repeated += 1,
                other => println!("a unit is {other}"),
            },
            Err(ReceiveError::Refused(refusal)) => {
                self.counts.refused += 1;
                println!("a unit is refused: {}, {}", refusal.number(), refusal.text());
            }
            Err(other) => return Err(other),
        }
        Ok(())
    }

    /// Closes and removes all blocks that are open. The receiver opened them as full ones, with the code and W of their units, by which the fill of
    /// the last one follows from the file's length.
    fn close(&mut self) -> Result<(), ReceiveError> {
        let records: Vec<Record> = self.receiver.lscs().filter_map(|lsc| Some(self.receiver.block(lsc)?.record())).collect();
        for record in records {
            let (lsc, fill) = (record.lsc(), fill(self.file_length, record));
            // one that is not the file's counts as no block
            if fill > 0 {
                self.receiver.set_fill(lsc, fill)?;
                let closed = self.receiver.close(lsc)?;
                self.reports.insert(lsc, (record, closed.report()));
                if let Some(information) = closed.information() {
                    self.whole.insert(lsc, information.to_vec());
                }
            }
            self.receiver.remove(lsc);
        }
        Ok(())
    }

    /// The LSCs that were sent, as far as the receiver can tell: the file was cut by code and W, which only a unit says; where none came, it is the
    /// first.
    fn lscs(&self) -> Range<usize> {
        match self.reports.values().next() {
            Some(&(record, _)) => lscs(self.file_length, record),
            None => 1..1 + self.file_length.min(1),
        }
    }

    /// The file, if all its blocks are whole.
    fn file(&self) -> Option<Vec<u8>> {
        let mut file = Vec::new();
        for lsc in self.lscs() {
            file.extend_from_slice(self.whole.get(&lsc)?);
        }
        file.truncate(self.file_length);
        Some(file)
    }

    fn print_blocks(&self) {
        for lsc in self.lscs() {
            match self.reports.get(&lsc) {
                Some((_, Report { verdict, heard, filled, left, .. })) => {
                    println!("block {lsc}: {verdict}, heard {heard}, filled {filled}, left {left}");
                }
                None => println!("block {lsc}: no unit came"),
            }
        }
    }

    fn print_not_whole(&self) {
        print!("not recovered; not whole:");
        self.lscs().filter(|lsc| !self.whole.contains_key(lsc)).for_each(|lsc| print!(" {lsc}"));
        println!();
    }
}

/// Whether the file was recovered.
fn run(options: &Options) -> Result<bool, Box<dyn Error>> {
    let file = options.bytes()?;
    let board = Board::new(options.record, &file)?;
    let (mut random, mut ground) = (Random::new(options.seed), Ground::new(file.len())?);
    let (mut sent, mut arrived) = (0, 0);
    for lscs in board.lscs().collect::<Vec<usize>>().chunks(TOGETHER) {
        let units = board.units(lscs)?;
        sent += units.len();
        for unit in downlink(units, options.loss, &mut random) {
            arrived += 1;
            ground.take(&unit)?;
        }
        ground.close()?;
    }
    let Counts { kept, repeated, refused } = ground.counts;
    println!("units: {sent} sent, {arrived} arrived, {kept} kept, {repeated} repeated, {refused} refused");
    ground.print_blocks();
    let Some(recovered) = ground.file() else {
        ground.print_not_whole();
        return Ok(false);
    };
    if recovered != file {
        return Err("every block is whole, but the file is not as sent".into());
    }
    options.write(&recovered)?;
    println!("recovered: {} bytes, as sent", recovered.len());
    Ok(true)
}

fn main() -> ExitCode {
    match Options::read(std::env::args().skip(1)).and_then(|options| run(&options)) {
        Ok(true) => ExitCode::SUCCESS,
        Ok(false) => ExitCode::from(1),
        Err(why) => {
            eprintln!("file: {why}");
            ExitCode::from(2)
        }
    }
}
