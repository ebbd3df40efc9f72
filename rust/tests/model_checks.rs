//! The model by itself: its tables, its encoder against the check rows, its solvers against each other and enumeration, its lists against its calls,
//! its packing against the chains that it leaves; and that it has nothing of the crate.
mod compare;
mod model;

use compare::cases;
use compare::lists::Call;
use compare::random::Random;
use compare::scripts::{self, Between};
use model::answers::Verdict;
use model::refusals::Record;
use model::{blocks, calls, closing, codes, encoder, generator, solver, tiles, Code, Fault};
use std::collections::{BTreeMap, BTreeSet};
use std::fs;
use std::path::{Path, PathBuf};

/// What a table is made of.
struct Shape {
    code: &'static Code,
    /// So many rows of so many addresses, one below the other.
    rows: &'static [(usize, usize)],
    addresses: usize,
    /// The information symbols in each check row j, by j mod 8.
    touching: [usize; 8],
}

static SHAPES: [Shape; 6] = [
    Shape { code: &codes::C1, rows: &[(16, 5)], addresses: 80, touching: [10; 8] },
    Shape { code: &codes::C2, rows: &[(4, 6), (12, 4)], addresses: 72, touching: [10, 10, 10, 10, 8, 8, 8, 8] },
    Shape { code: &codes::C4, rows: &[(32, 5)], addresses: 160, touching: [20; 8] },
    Shape { code: &codes::C5, rows: &[(16, 5), (16, 4)], addresses: 144, touching: [18; 8] },
    Shape { code: &codes::C7, rows: &[(48, 7), (16, 6)], addresses: 432, touching: [54; 8] },
    Shape { code: &codes::C8, rows: &[(4, 7), (60, 6)], addresses: 388, touching: [49, 49, 49, 49, 48, 48, 48, 48] },
];

#[test]
fn tables() {
    assert!(SHAPES.iter().map(|shape| shape.code.number).eq(codes::ALL.iter().map(|code| code.number)));
    for Shape { code, rows, addresses, touching } in &SHAPES {
        let lengths: Vec<usize> = code.table.iter().map(|row| row.len()).collect();
        assert_eq!(lengths, rows.iter().flat_map(|&(count, length)| vec![length; count]).collect::<Vec<_>>(), "C{}", code.number);
        assert_eq!(lengths.iter().sum::<usize>(), *addresses, "C{}", code.number);
        assert!(lengths.windows(2).all(|pair| pair[0] >= pair[1]), "C{}: longer rows first", code.number);
        for row in code.table {
            assert!(row.windows(2).all(|pair| pair[0] < pair[1]) && row.iter().all(|&y| y < code.m), "C{}: {row:?}", code.number);
        }
        assert_eq!((code.n, code.m, code.table.len() * code.q), (code.k + code.m, code.a * code.q, code.k), "C{}", code.number);
        for (j, row) in code.check_rows(Fault::None).iter().enumerate() {
            let information = row.iter().filter(|&&position| position < code.k).count();
            assert_eq!(information, touching[j % code.a], "check row {j} of C{}", code.number);
        }
    }
}

/// No information symbol touches two check rows that a parity symbol joins.
#[test]
fn neighbouring_check_rows() {
    for code in codes::ALL {
        for x in 0..code.k {
            let mut touched: Vec<usize> = code.touched(x).collect();
            touched.sort_unstable();
            assert!(touched.windows(2).all(|pair| pair[0] + 1 < pair[1]), "u_{x} of C{}", code.number);
        }
    }
}

/// In C1, C2 and C5 no two information symbols touch the same two check rows; in the others many do, but none the same ones throughout.
#[test]
fn shared_check_rows() {
    for (code, shared_pairs) in
        [(&codes::C1, 0), (&codes::C2, 0), (&codes::C4, 1248), (&codes::C5, 0), (&codes::C7, 1696), (&codes::C8, 8288)]
    {
        let mut pairs = BTreeMap::new();
        let mut columns = BTreeSet::new();
        for x in 0..code.k {
            let touched: BTreeSet<usize> = code.touched(x).collect();
            for &i in &touched {
                for &j in touched.range(i + 1..) {
                    *pairs.entry((i, j)).or_insert(0) += 1;
                }
            }
            assert!(columns.insert(touched), "u_{x} of C{} touches what another one does", code.number);
        }
        assert_eq!(pairs.values().filter(|&&times| times > 1).count(), shared_pairs, "C{}", code.number);
    }
}

/// Check row j: the sum of all u_x that touch j, plus p_j, plus p_(j - 1) where j > 0, is zero.
#[test]
fn encoder_and_check_rows() {
    let mut random = compare::seeded();
    for code in codes::ALL {
        for w in [1, 2, 5] {
            let mut information = vec![0; code.k * w];
            random.fill(&mut information);
            let word = encoder::codeword(code, w, &information);
            for (j, row) in code.check_rows(Fault::None).into_iter().enumerate() {
                let mut sum = vec![0; w];
                row.into_iter().for_each(|position| encoder::add(&mut sum, &word[position * w..][..w]));
                assert_eq!(sum, vec![0; w], "check row {j} of C{}", code.number);
            }
        }
    }
}

/// A small system, and which symbols are known.
struct System {
    w: usize,
    rows: Vec<Vec<usize>>,
    known: Vec<Option<Vec<u8>>>,
}

fn system(random: &mut Random) -> System {
    let (n, w) = (1 + random.below(18), 1 + random.below(2));
    let missing = random.below(n.min(12) + 1);
    let zero = random.chance(0.3);
    let mut known: Vec<Option<Vec<u8>>> =
        (0..n).map(|_| Some((0..w).map(|_| if zero { 0 } else { random.next() as u8 }).collect())).collect();
    for &position in &random.shuffled(n)[..missing] {
        known[position] = None;
    }
    let density = [0.1, 0.3, 0.5][random.below(3)];
    let rows = (0..random.below(14)).map(|_| (0..n).filter(|_| random.chance(density)).collect()).collect();
    System { w, rows, known }
}

impl System {
    /// All assignments of one bit of the missing symbols that satisfy every row, as bits of a number.
    fn solutions(&self, bit: usize) -> Vec<usize> {
        let mut missing = 0;
        let places: Vec<Option<usize>> = self
            .known
            .iter()
            .map(|symbol| {
                symbol.is_none().then(|| {
                    missing += 1;
                    missing - 1
                })
            })
            .collect();
        let bit_of = |position: usize, assignment: usize| match (&self.known[position], places[position]) {
            (Some(symbol), _) => usize::from(symbol[bit / 8] >> (bit % 8) & 1),
            (None, place) => assignment >> place.unwrap() & 1,
        };
        (0..1 << missing)
            .filter(|&assignment| self.rows.iter().all(|row| row.iter().fold(0, |sum, &position| sum ^ bit_of(position, assignment)) == 0))
            .collect()
    }
}

#[test]
fn solver_and_enumeration() {
    let mut random = compare::seeded();
    let mut found = [0; 3];
    for round in 0..2000 {
        let system = system(&mut random);
        let bits: Vec<Vec<usize>> = (0..8 * system.w).map(|bit| system.solutions(bit)).collect();
        let known: Vec<Option<&[u8]>> = system.known.iter().map(Option::as_deref).collect();
        let solution = solver::solve(&system.rows, system.w, &known);

        let none = bits.iter().any(Vec::is_empty);
        assert_eq!(solution.failed, none, "round {round}");
        if none {
            found[0] += 1;
            continue;
        }
        let one = bits.iter().all(|solutions| solutions.len() == 1);
        assert_eq!(solution.free, !one, "round {round}");
        found[if one { 1 } else { 2 }] += 1;
        let missing = (0..known.len()).filter(|&position| known[position].is_none());
        for (place, position) in missing.enumerate() {
            let value = &solution.values[position];
            let agreed = |solutions: &Vec<usize>| solutions.iter().all(|solution| (solution ^ solutions[0]) >> place & 1 == 0);
            let symbol = (0..system.w).map(|byte| (0..8).map(|b| ((bits[byte * 8 + b][0] >> place & 1) as u8) << b).sum()).collect();
            assert_eq!(*value, bits.iter().all(agreed).then_some(symbol), "round {round}, missing symbol {place}");
        }
    }
    println!("compared systems with no solution, one and more: {found:?}");
    assert!(found.iter().all(|&number| number > 100));
}

/// The parity symbols that the generator has each information symbol in are those of its codeword.
#[test]
fn generator_and_encoder() {
    for code in codes::ALL {
        let rows = generator::rows(code);
        for x in 0..code.k {
            let sums = (0..code.m).filter(|&j| rows[j][x] == 1).map(|j| code.k + j);
            assert!(sums.eq(encoder::support(code, &[x])[1..].iter().copied()), "u_{x} of C{}", code.number);
        }
    }
}

/// The encoder's parity of some symbols is that of the same and zeros up to k.
#[test]
fn short_and_filled_up() {
    let mut random = compare::seeded();
    for code in codes::ALL {
        for fill in cases::chosen_fills(code) {
            let mut information = vec![0; fill * 3];
            random.fill(&mut information);
            let short = encoder::codeword(code, 3, &information);
            information.resize(code.k * 3, 0);
            assert!(short == encoder::codeword(code, 3, &information), "C{}, fill {fill}", code.number);
        }
    }
}

/// The generator against the check rows with the idle symbols given as zero: the same is found in short blocks and full ones.
#[test]
fn generator_and_check_rows() {
    let mut random = compare::seeded();
    let mut found = [0; 3];
    for code in codes::ALL {
        let rows = code.check_rows(Fault::None);
        let rounds = if code.n < 1000 { 200 } else { 16 };
        for round in 0..rounds {
            let fill = if round % 4 == 0 { code.k } else { cases::any_fill(code, &mut random) };
            let w = 1 + random.below(3);
            let case = cases::any_short(code, fill, &mut random).sent_short(code, w, fill, &mut random);
            let heard = |i: usize| (!case.lost[i]).then(|| &case.symbols[i * w..][..w]);
            let zero = vec![0; w];
            let known: Vec<Option<&[u8]>> = (0..code.n).map(|i| if case.is_idle(i) { Some(&zero[..]) } else { heard(i) }).collect();
            let by_rows = solver::solve(&rows, w, &known);
            // At idle positions the generator's solver may be handed anything.
            let noise = vec![0xA5; w];
            let given: Vec<Option<&[u8]>> =
                (0..code.n).map(|i| if case.is_idle(i) && i % 2 == 0 { Some(&noise[..]) } else { heard(i) }).collect();
            let by_generator = generator::solve(code, fill, w, &given);
            assert_eq!((by_generator.failed, by_generator.free), (by_rows.failed, by_rows.free), "{}", case.label);
            if !by_rows.failed {
                assert!(by_generator.values == by_rows.values, "{}", case.label);
            }
            found[if by_rows.failed { 0 } else { 1 + usize::from(by_rows.free) }] += 1;
        }
    }
    println!("compared blocks in which none agrees, one and more: {found:?}");
    assert!(found.iter().all(|&number| number > 50));
}

/// Codes so small that all their codewords can be tried.
static SMALL: [Code; 3] = [
    Code { number: 0, n: 12, k: 8, m: 4, q: 2, a: 2, table: &[&[0, 3], &[1], &[0, 1, 2], &[2, 3]] },
    Code { number: 0, n: 15, k: 9, m: 6, q: 3, a: 2, table: &[&[0, 1, 5], &[2, 3], &[0, 4]] },
    Code { number: 0, n: 10, k: 4, m: 6, q: 2, a: 3, table: &[&[1, 2, 5], &[0, 3]] },
];

/// Close against all information parts of so many symbols, bit by bit.
#[test]
fn closing_and_enumeration() {
    let mut random = compare::seeded();
    let mut found = [0; 3];
    for round in 0..6000 {
        let code = &SMALL[round % 3];
        let fill = 1 + random.below(code.k);
        let mut symbols = encoder::codeword(code, 1, &cases::information(fill, 1, &mut random));
        if random.chance(0.3) {
            symbols[random.below(code.n)] ^= 1 << random.below(8);
        }
        let idle = fill..code.k;
        let lost = random.below(code.n + 1);
        let lost = &random.shuffled(code.n)[..lost];
        let heard = |i: usize| !idle.contains(&i) && !lost.contains(&i);
        // The words of each bit that agree, each a bit for each position.
        let words: Vec<u32> = (0..1u32 << fill)
            .map(|u| {
                let information: Vec<u8> = (0..fill).map(|x| (u >> x & 1) as u8).collect();
                encoder::codeword(code, 1, &information).iter().enumerate().map(|(i, &b)| u32::from(b) << i).sum()
            })
            .collect();
        let agreeing: Vec<Vec<u32>> = (0..8)
            .map(|bit| {
                let agrees = |word: &u32| (0..code.n).all(|i| !heard(i) || word >> i & 1 == u32::from(symbols[i] >> bit & 1));
                words.iter().copied().filter(agrees).collect()
            })
            .collect();

        let record = Record { code: 0, w: 1, protocol: 0, lsc: 1, fill };
        let marked: Vec<Option<&[u8]>> = (0..code.n).map(|i| (!lost.contains(&i)).then(|| &symbols[i..=i])).collect();
        let outcome = closing::close(record, code, &marked, Fault::None);
        let verdict = match () {
            () if agreeing.iter().any(Vec::is_empty) => Verdict::Inconsistent,
            () if agreeing.iter().all(|words| words.len() == 1) => Verdict::Whole,
            () => Verdict::Ambiguous,
        };
        let settled = |i: usize| {
            verdict != Verdict::Inconsistent && agreeing.iter().all(|words| words.iter().all(|word| (word ^ words[0]) >> i & 1 == 0))
        };
        let due: Vec<(u8, u8)> = (0..code.n)
            .map(|i| match () {
                () if idle.contains(&i) => (0, 0),
                () if heard(i) => (1, symbols[i]),
                () if settled(i) => (2, (0..8).map(|bit| ((agreeing[bit][0] >> i & 1) as u8) << bit).sum()),
                () => (0, 0),
            })
            .collect();
        let after: Vec<(u8, u8)> = outcome.marks.iter().copied().zip(outcome.symbols).collect();
        assert_eq!((outcome.report.verdict, after), (verdict, due), "round {round}");
        let counts = [outcome.report.heard, outcome.report.filled, outcome.report.left];
        let count = |mark: u8| (0..code.n).filter(|&i| !idle.contains(&i) && outcome.marks[i] == mark).count();
        assert_eq!((counts, counts.iter().sum()), ([count(1), count(2), count(0)], fill + code.m), "round {round}");
        found[verdict as usize] += 1;
    }
    println!("compared blocks that are whole, ambiguous and inconsistent: {found:?}");
    assert!(found.iter().all(|&number| number > 300));
}

/// Lists of calls: from the list alone, as `blocks` has it, and call by call on buffers, the same comes.
#[test]
fn lists_and_calls() {
    let mut random = compare::seeded();
    for code in codes::ALL {
        for round in 0..if code.n < 1000 { 24 } else { 4 } {
            let fill = if round % 4 == 0 { code.k } else { cases::any_fill(code, &mut random) };
            let case = cases::any_short(code, fill, &mut random).sent_short(code, 2, fill, &mut random);
            let list = scripts::list(&case, Between::Anything, &mut random);
            let mut block = blocks::Block::open(list.record, Fault::None).unwrap();
            let (mut symbols, mut marks) = (vec![0xA5; code.n * 2], vec![0xA5; code.n]);
            calls::open(list.record, &mut symbols, &mut marks, Fault::None).unwrap();
            for (index, call) in list.calls.iter().enumerate() {
                match call {
                    Call::Take(unit) => {
                        let answer = calls::take(list.record, &mut symbols, &mut marks, unit, Fault::None);
                        assert_eq!(answer, block.take(unit), "{}: call {index}", list.label);
                    }
                    &Call::Close { words, bytes, .. } => {
                        let (mut work, mut sums) = (vec![1; words], vec![1; bytes]);
                        let answer = calls::close(list.record, &mut symbols, &mut marks, &mut work, &mut sums, Fault::None);
                        assert_eq!(answer, block.close(words, bytes), "{}: call {index}", list.label);
                    }
                }
                assert!(symbols == block.symbols() && marks == block.marks(), "{}: call {index}", list.label);
            }
        }
    }
}

/// Every list of up to four lengths, none more than a byte above two rows, in up to six narrow rows.
#[test]
fn packing_and_following_the_chains() {
    let mut found = [0; 3];
    for (payload, fill) in (1..=4).flat_map(|payload| (1..=6).map(move |fill| (payload, fill))) {
        let lengths: usize = 2 * payload + 2;
        for count in 0..=4 {
            for list in 0..lengths.pow(count) {
                let list: Vec<usize> = (0..count).map(|place| list / lengths.pow(place) % lengths).collect();
                found[usize::from(packed(4 + payload, fill, &list))] += 1;
            }
        }
    }
    println!("compared lists of tiles that fit, that have one of no bytes, and that have too many rows: {found:?}");
    assert!(found.iter().all(|&number| number > 5000));
}

/// Packs tiles of these lengths: 0, or 1 and 2 where 16 and 17 are due. What was packed is read back, and the rows have nothing else.
fn packed(w: usize, fill: usize, lengths: &[usize]) -> u8 {
    let record = Record { code: 1, w, protocol: 0, lsc: 1, fill };
    let tiles: Vec<Vec<u8>> =
        lengths.iter().enumerate().map(|(tile, &length)| (0..length).map(|at| (16 * tile + at + 1) as u8).collect()).collect();
    let rows: Vec<&[u8]> = tiles.iter().flat_map(|tile| tile.chunks(w - 4)).collect();
    let mut out = vec![0xA5; fill * w];
    let label = format!("W {w}, fill {fill}, {lengths:?}");
    match calls::pack(record, &tiles.concat(), lengths, &mut out, Fault::None) {
        Err(number) => {
            assert_eq!(number, if tiles.contains(&Vec::new()) { 16 } else { 17 }, "{label}");
            assert!(number == 16 || rows.len() > fill, "{label}");
            assert!(out == vec![0xA5; fill * w], "{label}");
            number - 15
        }
        Ok(()) => {
            assert!(!tiles.contains(&Vec::new()) && rows.len() <= fill, "{label}");
            assert_eq!(tiles::follow(w, &out), tiles, "{label}");
            // In row order, each with what it has of a tile, and zeros after that.
            for (row, bytes) in out.chunks_exact(w).enumerate() {
                let part = rows.get(row).copied().unwrap_or_default();
                assert_eq!((usize::from(bytes[3]), &bytes[4..][..part.len()]), (part.len(), part), "{label}, row {row}");
                assert!(bytes[4 + part.len()..].iter().all(|&byte| byte == 0) && bytes[2] == 0, "{label}, row {row}");
                assert!(!part.is_empty() || bytes[..2] == [0, 0], "{label}, row {row}");
            }
            0
        }
    }
}

/// Bytes that are not the lengths' sum, however that may be cut.
#[test]
fn lengths_and_their_sum() {
    let max = usize::MAX;
    let numbers = [1, 2, 5, 6, 1 << 32, (1 << 32) + 5, 1 << 63, max - 5, max - 1, max];
    let record = Record { code: 1, w: 1024, protocol: 0, lsc: 1, fill: 3 };
    let mut adding_up = 0;
    for list in 0..numbers.len().pow(3) {
        let lengths = [list / 100, list / 10 % 10, list % 10].map(|number| numbers[number]);
        for bytes in 0..16 {
            let adds_up = lengths.iter().try_fold(0usize, |sum, &length| sum.checked_add(length)) == Some(bytes);
            let answer = calls::pack(record, &vec![1; bytes], &lengths, &mut [0; 3072], Fault::None);
            assert_eq!(answer, if adds_up { Ok(()) } else { Err(16) }, "{lengths:?} over {bytes}");
            adding_up += usize::from(adds_up);
        }
    }
    // Those of 1, 2, 5 and 6, but for seven whose sum is above 15.
    assert_eq!(adding_up, 64 - 7);
}

/// All files below a folder of the crate.
fn files(name: &str) -> Vec<PathBuf> {
    let mut found = vec![Path::new(env!("CARGO_MANIFEST_DIR")).join(name)];
    while let Some(place) = found.iter().position(|path| path.is_dir()) {
        let folder = found.swap_remove(place);
        found.extend(fs::read_dir(folder).unwrap().map(|entry| entry.unwrap().path()));
    }
    found
}

/// What is compared with the crate uses nothing of it, not even a type.
#[test]
fn model_without_the_crate() {
    let files = [files("tests/model"), files("support")].concat();
    assert!(files.len() >= 14, "{files:?}");
    for file in files {
        let text = fs::read_to_string(&file).unwrap();
        assert!(!text.contains("lipvezor"), "{} names the crate", file.display());
    }
}

/// The crate's calls one to one are made in one place, and what they answer is translated there.
#[test]
fn one_place_makes_the_calls() {
    let calls =
        |line: &str| line.starts_with("use lipvezor::") && line.contains("calls") || line.contains(concat!("lipvezor", "::calls::"));
    let callers: Vec<PathBuf> = files("tests").into_iter().filter(|file| fs::read_to_string(file).unwrap().lines().any(calls)).collect();
    assert_eq!(callers, [Path::new(env!("CARGO_MANIFEST_DIR")).join("tests/compare/ours.rs")]);
}
