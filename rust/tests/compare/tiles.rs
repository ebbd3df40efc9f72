//! Tiles packed: chosen ones at both sides of what fits and of what adds up, and any.
use super::cases::any_fill;
use super::random::Random;
use super::{ours, same, same_buffer, Difference, Stats};
use crate::model::refusals::Record;
use crate::model::{calls as model, Code, Fault};

/// Widths at both sides of the narrowest, of the borders of what a copy may do at once, and of the widest.
pub const WIDTHS: [usize; 14] = [5, 6, 7, 8, 16, 20, 21, 36, 37, 64, 127, 128, 1023, 1024];

/// Bytes of a row that are not payload.
const HEAD: usize = 4;

/// Bytes on either side of an output.
const GUARD: usize = 64;

/// What is packed: the lengths of tiles, and how many joined bytes there are, which need not be their sum.
#[derive(Clone)]
pub struct Tiles {
    pub lengths: Vec<usize>,
    pub bytes: usize,
}

impl Tiles {
    /// Of true lengths.
    pub fn new(lengths: Vec<usize>) -> Tiles {
        Tiles { bytes: lengths.iter().sum(), lengths }
    }

    /// So many tiles of so many bytes each.
    fn equal(count: usize, length: usize) -> Tiles {
        Tiles::new(vec![length; count])
    }

    /// Over so many bytes, whatever the lengths say.
    fn over(bytes: usize, lengths: &[usize]) -> Tiles {
        Tiles { lengths: lengths.to_vec(), bytes }
    }
}

/// Tiles that fit into so many rows of so many bytes of payload, or need just more.
pub fn fitting_or_overfull(fill: usize, payload: usize) -> Vec<Tiles> {
    let all = fill * payload;
    let mut tiles = vec![Tiles::new(Vec::new())];
    // One tile, of about one row, two, half of them, and all.
    for rows in [1, 2, fill.div_ceil(2), fill] {
        tiles.extend((rows * payload - 1..=rows * payload + 1).filter(|&length| length > 0).map(|length| Tiles::equal(1, length)));
    }
    // A row for each.
    for count in [fill - 1, fill, fill + 1] {
        tiles.push(Tiles::equal(count, 1));
        tiles.push(Tiles::equal(count, payload));
    }
    // Two that have too many rows, but if the payload is two bytes or more not too many bytes; and two that have just enough.
    tiles.push(Tiles::new(vec![all - payload + 1, 1]));
    tiles.push(Tiles::new(vec![1, all - payload + 1]));
    if fill > 1 {
        tiles.push(Tiles::new(vec![all - payload, 1]));
        tiles.push(Tiles::new(vec![1, all - payload]));
    }
    tiles.extend(mixed(fill, payload));
    tiles
}

/// Tiles of about one row, two and three, one after the other: with rows left over, in all rows, and in one more.
fn mixed(fill: usize, payload: usize) -> Vec<Tiles> {
    let about = [payload, payload + 1, 1, 2 * payload, payload - 1, 2 * payload + 1, 3 * payload - 1];
    let mut lengths = Vec::new();
    let mut left = fill;
    for length in about.into_iter().cycle().filter(|&length| length > 0) {
        let rows = length.div_ceil(payload);
        if rows >= left {
            break;
        }
        lengths.push(length);
        left -= rows;
    }
    // What is left is a row or more.
    let with = |last: &[usize]| Tiles::new([&lengths[..], last].concat());
    vec![with(&[]), with(&[left * payload]), with(&[(left - 1) * payload + 1]), with(&[left * payload, 1]), with(&[left * payload + 1])]
}

/// Tiles of lengths that are 0 or don't add up to the bytes; some would have too many rows as well.
pub fn wrong(fill: usize, payload: usize) -> Vec<Tiles> {
    const HALF: usize = 1 << (usize::BITS - 1);
    const LOW: usize = 1 << (usize::BITS / 2);
    let ones = vec![1; fill + 1];
    vec![
        // Bytes without lengths, lengths without bytes.
        Tiles::over(1, &[]),
        Tiles::over(payload, &[]),
        Tiles::over(fill * payload, &[]),
        Tiles::over(0, &[1]),
        Tiles::over(0, &[payload]),
        // One more, or less.
        Tiles::over(5, &[6]),
        Tiles::over(5, &[4]),
        Tiles::over(2 * payload - 1, &[payload; 2]),
        Tiles::over(2 * payload + 1, &[payload; 2]),
        Tiles::over(fill * payload, &[fill * payload + 1]),
        Tiles::over(fill, &ones),
        // Sums that wrap to the bytes, or would if they were cut.
        Tiles::over(5, &[HALF, HALF, 5]),
        Tiles::over(5, &[5, HALF, HALF]),
        Tiles::over(0, &[HALF, HALF]),
        Tiles::over(5, &[HALF / 2, HALF / 2, HALF / 2, HALF / 2, 5]),
        Tiles::over(5, &[usize::MAX, 6]),
        Tiles::over(5, &[6, usize::MAX]),
        Tiles::over(5, &[usize::MAX, 1, 5]),
        Tiles::over(0, &[usize::MAX, 1]),
        Tiles::over(1, &[usize::MAX, usize::MAX, 3]),
        Tiles::over(5, &[usize::MAX]),
        Tiles::over(5, &[LOW, 5]),
        Tiles::over(5, &[LOW + 5]),
        // A length of 0.
        Tiles::over(0, &[0]),
        Tiles::over(5, &[0, 5]),
        Tiles::over(5, &[5, 0]),
        Tiles::over(5, &[2, 0, 3]),
        Tiles::over(fill, &[&ones[1..], &[0]].concat()),
        Tiles::over(fill + 1, &[&[0], &ones[..]].concat()),
        Tiles::over(fill + 1, &[&ones[..], &[0]].concat()),
        Tiles::over(0, &vec![0; fill + 1]),
    ]
}

/// Packs random bytes into the middle of bytes that are all the same; those on either side stay. Tiles and outputs start at all alignments of 16.
pub fn pack(record: Record, tiles: &Tiles, out: usize, fault: Fault, random: &mut Random) -> Result<Stats, Difference> {
    let Tiles { lengths, bytes } = tiles;
    let mut joined = vec![0; bytes + 15];
    random.fill(&mut joined);
    let joined = &joined[random.below(16)..][..*bytes];
    let mut buffer = vec![[0xA5, 0x5A, 0xFF][random.below(3)]; GUARD + 15 + out + GUARD];
    let mut due = buffer.clone();
    let start = GUARD + random.below(16);
    let output = start..start + out;
    let answer = ours::pack(record, joined, lengths, &mut buffer[output.clone()]);
    let name = || {
        let (few, more) = (&lengths[..lengths.len().min(8)], if lengths.len() > 8 { " and more" } else { "" });
        format!("pack of {} tiles, {few:?}{more}, {bytes} bytes, to {out}, {record:?}", lengths.len())
    };
    same(answer, model::pack(record, joined, lengths, &mut due[output.clone()], fault), name)?;
    same_buffer(&buffer[output.clone()], &due[output], name)?;
    same_buffer(&buffer, &due, || format!("beside the output of {}", name()))?;
    same(ours::rows_needed(record.w, lengths), model::rows_needed(record.w, lengths), || format!("rows needed: {}", name()))?;
    let mut stats = Stats::default();
    stats.count_packed(answer);
    Ok(stats)
}

/// A record of which only code, width and fill count.
fn any_label(code: usize, w: usize, fill: usize, random: &mut Random) -> Record {
    Record { code, w, protocol: random.below(16), lsc: random.below(70_000), fill }
}

/// All chosen tiles for a block of so many rows; if it is large, one in so many of those that fit or are overfull.
pub fn chosen(code: &Code, w: usize, fill: usize, fault: Fault, random: &mut Random) -> Result<Stats, Difference> {
    let (size, payload) = (fill * w, w - HEAD);
    let step = 1 + size / 500_000;
    let mut stats = Stats::default();
    for tiles in fitting_or_overfull(fill, payload).iter().skip(random.below(step)).step_by(step).chain(&wrong(fill, payload)) {
        stats += pack(any_label(code.number, w, fill, random), tiles, size, fault, random)?;
    }
    Ok(stats)
}

/// Numbers that are refused, with tiles and outputs that fit or don't.
pub fn refused_numbers(code: &Code, fault: Fault, random: &mut Random) -> Result<Stats, Difference> {
    let mut stats = Stats::default();
    let widths = [0, 1, 2, 3, 4, 5, 6, 1025, usize::MAX];
    let fills = [0, 1, 2, code.k, code.k + 1, usize::MAX / 8, usize::MAX];
    for (w, fill) in widths.into_iter().flat_map(|w| fills.map(|fill| (w, fill))) {
        // Where a number is refused, any length may be the output's.
        let (rows, width) = (if fill > code.k { 3 } else { fill }, if w > 1024 { 7 } else { w });
        for tiles in [Tiles::equal(rows, 1), Tiles::equal(rows + 1, 1), Tiles::over(5, &[6]), Tiles::over(0, &[0])] {
            for (number, out) in [(code.number, rows * width), (code.number, rows * width + 1), (code.number, 0), (code.number + 8, 0)] {
                stats += pack(any_label(number, w, fill, random), &tiles, out, fault, random)?;
            }
        }
    }
    Ok(stats)
}

/// So many rounds of any tiles.
pub fn random(code: &Code, rounds: usize, fault: Fault, random: &mut Random) -> Result<Stats, Difference> {
    let mut stats = Stats::default();
    for _ in 0..rounds {
        stats += any(code, fault, random)?;
    }
    Ok(stats)
}

/// Any tiles of any block, most often about as many as fit; now and then with something that is refused.
pub fn any(code: &Code, fault: Fault, random: &mut Random) -> Result<Stats, Difference> {
    let w = match random.below(100) {
        0 => 5 + random.below(1020),
        1..=9 => 5 + random.below(200),
        10..=12 => 1 + random.below(4),
        chosen => WIDTHS[chosen % 12],
    };
    let fill = if random.chance(0.5) { 1 + random.below(24) } else { any_fill(code, random) };
    let mut record = any_label(code.number, w, fill, random);
    let mut tiles = any_tiles(fill, w.max(HEAD + 1) - HEAD, random);
    let mut out = fill * w;
    match random.below(60) {
        0 => record.code = [0, 3, 6, 9][random.below(4)],
        1 => record.w = [0, 1025, usize::MAX][random.below(3)],
        2 => record.fill = [0, code.k + 1, usize::MAX][random.below(3)],
        3 => out += 1,
        4 => out -= 1,
        5 => tiles.bytes += 1,
        6 => tiles.bytes = tiles.bytes.saturating_sub(1),
        7 => tiles.lengths.insert(random.below(tiles.lengths.len() + 1), 0),
        8 => {
            let large = usize::MAX - random.below(1000);
            tiles.lengths.insert(random.below(tiles.lengths.len() + 1), large);
            tiles.lengths.insert(random.below(tiles.lengths.len() + 1), large.wrapping_neg());
        }
        _ => {}
    }
    pack(record, &tiles, out, fault, random)
}

/// Tiles of any lengths that need about so many rows, or fewer.
fn any_tiles(fill: usize, payload: usize, random: &mut Random) -> Tiles {
    let rows = match random.below(4) {
        0 => random.below(fill + 1),
        1 => fill + random.below(3),
        _ => fill,
    };
    let longest = 1 + random.below(rows.max(1)).min(1 + random.below(40));
    let mut lengths = Vec::new();
    let mut left = rows;
    while left > 0 {
        let taken = 1 + random.below(longest.min(left));
        lengths.push(match random.below(3) {
            0 => taken * payload,
            1 => (taken - 1) * payload + 1,
            _ => (taken - 1) * payload + 1 + random.below(payload),
        });
        left -= taken;
    }
    Tiles::new(lengths)
}
