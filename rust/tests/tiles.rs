//! Pack against the model, and what is packed sent in units and closed.
mod compare;
mod model;

use compare::random::Random;
use compare::tiles::{self, Tiles};
use compare::{ours, suite, Difference, Stats};
use model::answers::{Taken, Verdict};
use model::refusals::Record;
use model::{codes, units, Code, Fault};
use std::thread;
use std::time::{Duration, Instant};

fn report(name: &str, stats: &Stats) {
    println!("{name}: compared {} packed blocks, refused {:?}", stats.packed, stats.refusals());
}

#[test]
fn pack_agrees_with_the_model() {
    let start = Instant::now();
    let by_code = thread::scope(|scope| {
        let threads = codes::ALL.map(|code| scope.spawn(move || tiles_of(code)));
        threads.map(|thread| thread.join().unwrap().unwrap())
    });
    let mut stats = Stats::default();
    for of_code in by_code {
        // The chosen ones alone are so many.
        assert!(of_code.packed >= 1000 && [1, 2, 15, 13, 4, 16, 17].iter().all(|&number| of_code.refused[number] >= 40), "{of_code:?}");
        stats += of_code;
    }
    report("chosen and random", &stats);
    println!("seed {}, {:.1} s", compare::seed(), start.elapsed().as_secs_f64());
}

/// Chosen tiles, and then random ones for a twentieth of the time that blocks have.
fn tiles_of(code: &'static Code) -> Result<Stats, Difference> {
    let seed = compare::seed().wrapping_mul(16).wrapping_add(code.number as u64);
    let mut stats = suite::chosen_tiles(code, Fault::None, seed)?;
    let until = Instant::now() + Duration::from_secs(compare::seconds()) / 20;
    stats += suite::random_tiles(code, Fault::None, !seed, until)?;
    Ok(stats)
}

/// In blocks of three rows.
#[test]
fn every_width() {
    let mut random = compare::seeded();
    let mut stats = Stats::default();
    for w in 5..=1024 {
        stats += tiles::chosen(&codes::C1, w, 3, Fault::None, &mut random).unwrap();
    }
    report("every width", &stats);
}

/// As many tiles of one byte as rows, and one more; one tile that needs all rows, and one more.
#[test]
fn every_fill() {
    let mut random = compare::seeded();
    for code in codes::ALL {
        let mut stats = Stats::default();
        for fill in 1..=code.k {
            let record = record(code, 7, fill);
            for lengths in [vec![1; fill], vec![1; fill + 1], vec![3 * fill], vec![3 * fill + 1]] {
                stats += tiles::pack(record, &Tiles::new(lengths), fill * 7, Fault::None, &mut random).unwrap();
            }
        }
        report("every fill", &stats);
        assert_eq!((stats.packed, stats.refused[17]), (2 * code.k, 2 * code.k));
    }
}

/// Protocol ID and LSC don't count.
fn record(code: &Code, w: usize, fill: usize) -> Record {
    Record { code: code.number, w, protocol: 8, lsc: 0, fill }
}

/// Packs tiles of these lengths into an output that held FF everywhere. The joined bytes are 1, 2, 3 and so on.
fn packed(record: Record, lengths: &[usize]) -> Result<Vec<u8>, u8> {
    let joined: Vec<u8> = (1..=lengths.iter().sum()).map(|i: usize| i as u8).collect();
    let mut out = vec![0xFF; record.fill * record.w];
    ours::pack(record, &joined, lengths, &mut out).map(|()| out)
}

#[test]
fn rows_by_hand() {
    // A tile of less than a row, one of two full rows, one of a row and a byte; and a row that none uses.
    let rows = [
        [0, 0, 0, 2, 1, 2, 0],
        [0, 3, 0, 3, 3, 4, 5],
        [0, 0, 0, 3, 6, 7, 8],
        [0, 5, 0, 3, 9, 10, 11],
        [0, 0, 0, 1, 12, 0, 0],
        [0, 0, 0, 0, 0, 0, 0],
    ];
    for code in codes::ALL {
        assert_eq!(packed(record(code, 7, 6), &[2, 6, 4]), Ok(rows.concat()));
        assert_eq!(packed(record(code, 7, 5), &[2, 6, 4]), Ok(rows[..5].concat()));
        assert_eq!(packed(record(code, 7, 4), &[2, 6, 4]), Err(17));
        assert_eq!(packed(record(code, 7, 3), &[]), Ok(vec![0; 21]));
        // The narrowest rows have one byte of a tile each.
        let rows = [[0, 2, 0, 1, 1], [0, 0, 0, 1, 2], [0, 0, 0, 1, 3]];
        assert_eq!(packed(record(code, 5, 3), &[2, 1]), Ok(rows.concat()));
        assert_eq!(packed(record(code, 4, 3), &[2, 1]), Err(15));
    }
}

/// Numbers of two bytes: in the longest block of the widest rows, one tile in all rows.
#[test]
fn largest_next_and_count() {
    let out = packed(record(&codes::C2, 1024, 2048), &[2048 * 1020]).unwrap();
    let heads: Vec<&[u8]> = out.chunks_exact(1024).map(|row| &row[..4]).collect();
    assert_eq!((heads[0], heads[253], heads[254]), (&[0, 2, 3, 252][..], &[0, 255, 3, 252][..], &[1, 0, 3, 252][..]));
    assert_eq!((heads[2046], heads[2047]), (&[8, 0, 3, 252][..], &[0, 0, 3, 252][..]));
    assert_eq!(packed(record(&codes::C2, 1024, 2048), &[2048 * 1020 + 1]), Err(17));
}

/// Each by itself and at the border of the largest number.
#[test]
fn rows_needed() {
    let max = usize::MAX;
    for (w, lengths, due) in [
        (5, &[][..], 0),
        (5, &[0, 0], 0),
        (5, &[1, 2, 3], 6),
        (16, &[1, 12, 13, 0, 24, 25], 1 + 1 + 2 + 2 + 3),
        (1024, &[1, 1020, 1021], 1 + 1 + 2),
        (5, &[max - 1], max - 1),
        (5, &[max - 1, 1], max),
        (5, &[max - 1, 1, 1], max),
        (5, &[max, max, max], max),
        (6, &[max], max / 2 + 1),
        (6, &[max, max - 2], max),
        (6, &[max, max], max),
        (0, &[1], 0),
        (4, &[1, 2], 0),
        (1025, &[1], 0),
        (max, &[1], 0),
    ] {
        assert_eq!((ours::rows_needed(w, lengths), model::calls::rows_needed(w, lengths)), (due, due), "W {w}, {lengths:?}");
    }
}

/// What is packed is encoded and sent in units, some are lost, and after close it is all there; the chains then give the tiles.
#[test]
fn packed_tiles_come_back_after_losses() {
    // A seed by which all that is lost can be filled.
    let mut random = Random::new(1);
    for code in codes::ALL {
        for w in [5, 16, 21, 64, 1024] {
            for fill in [1, 2, code.k / 3, code.k - 1, code.k] {
                let record = Record { code: code.number, w, protocol: 3, lsc: 77, fill };
                let tiles = some_tiles(fill, w - 4, &mut random);
                let lengths: Vec<usize> = tiles.iter().map(Vec::len).collect();
                let mut information = vec![0xA5; fill * w];
                ours::pack(record, &tiles.concat(), &lengths, &mut information).unwrap();
                let received = sent_and_closed(code, record, &information, &mut random);
                assert!(received == information, "{record:?}");
                assert!(model::tiles::follow(w, &received) == tiles, "{record:?}");
            }
        }
    }
}

/// Random tiles in so many rows or fewer.
fn some_tiles(rows: usize, payload: usize, random: &mut Random) -> Vec<Vec<u8>> {
    let mut tiles = Vec::new();
    let mut left = rows;
    while left > 0 && (tiles.is_empty() || random.chance(0.95)) {
        let mut tile = vec![0; 1 + random.below(payload * left.min(9))];
        random.fill(&mut tile);
        left -= tile.len().div_ceil(payload);
        tiles.push(tile);
    }
    tiles
}

/// The information of a block after a close, where as many units as an eighth of m are lost.
fn sent_and_closed(code: &Code, record: Record, information: &[u8], random: &mut Random) -> Vec<u8> {
    let Record { w, fill, .. } = record;
    let mut parity = vec![0xA5; code.m * w];
    ours::encode(record, information, &mut parity).unwrap();
    let (mut symbols, mut marks) = (vec![0xA5; code.n * w], vec![0xA5; code.n]);
    ours::open(record, &mut symbols, &mut marks).unwrap();
    let lwcs: Vec<usize> = (1..=fill).chain(code.k + 1..=code.n).collect();
    let heard = &random.shuffled(lwcs.len())[code.m / 8..];
    let mut symbol = vec![0; w];
    let mut unit = units::write(code, w, 1, 1, 1, &symbol);
    for lwc in heard.iter().map(|&place| lwcs[place]) {
        ours::show(record, information, &parity, lwc, &mut symbol).unwrap();
        ours::write(record, lwc, &symbol, &mut unit).unwrap();
        assert_eq!(ours::take(record, &mut symbols, &mut marks, &unit), Ok(Taken::Kept));
    }
    let (mut words, mut bytes) = (vec![0; code.work_words()], vec![0; code.m * w]);
    let report = ours::close(record, &mut symbols, &mut marks, &mut words, &mut bytes).unwrap();
    assert_eq!((report.verdict, report.filled), (Verdict::Whole, code.m / 8), "{record:?}");
    symbols.truncate(fill * w);
    symbols
}
