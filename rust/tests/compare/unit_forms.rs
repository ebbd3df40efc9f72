//! Units in all forms, from readable to nonsense.
use super::all_strings::EDGES;
use super::drafts::{padded_sdnv, Draft, Extension};
use super::random::Random;
use super::units::Reader;
use super::{ours, same, Difference, Stats};
use crate::model::answers::UnitParts;
use crate::model::byte_reader::{decide, Refused};
use crate::model::{codes, units, Code, Fault};

/// Each byte of a few units with each value; each unit cut off at each length, and longer.
pub fn altered(fault: Fault, random: &mut Random) -> Result<Stats, Difference> {
    let mut stats = Stats::default();
    for (code, w, fill) in [
        (&codes::C1, 3, 512),
        (&codes::C2, 1, 2048),
        (&codes::C4, 2, 300),
        (&codes::C5, 1, 1),
        (&codes::C7, 200, 512),
        (&codes::C8, 1, 2047),
    ] {
        let mut reader = Reader::short(code, w, fill, fault);
        for lwc in [1, fill, code.k + 1, code.n] {
            let mut plain = reader.draft(lwc, random);
            // Where a larger length takes in the symbol, a fifth number begins with 80.
            plain.symbol[0] = 0x80;
            let mut dressed = plain.clone();
            dressed.extensions.insert(0, Extension::new(7, vec![1; 128]));
            dressed.extensions.push(Extension::new(254, vec![0x80; 4]));
            let mut padded = plain.clone();
            padded.extensions[0].length.insert(0, 0x80);
            for draft in [plain, dressed, padded] {
                let unit = draft.bytes();
                reader.compare(&unit)?;
                for length in 0..unit.len() {
                    reader.compare(&unit[..length])?;
                }
                for more in [1, 2, 100] {
                    reader.compare(&[unit.clone(), vec![0; more]].concat())?;
                }
                each_value(&mut reader, &unit, unit.len())?;
            }
        }
        stats += reader.stats;
    }
    Ok(stats)
}

/// Each of the first so many bytes of a unit with each value.
fn each_value(reader: &mut Reader, unit: &[u8], places: usize) -> Result<(), Difference> {
    for place in 0..places {
        for value in 0..=255 {
            let mut other = unit.to_vec();
            other[place] = value;
            reader.compare(&other)?;
        }
    }
    Ok(())
}

/// Units that differ in one byte from what the block expects, up to the symbol's second byte, where W has one byte and where it has two.
pub fn unexpected(fault: Fault, random: &mut Random) -> Result<Stats, Difference> {
    let mut stats = Stats::default();
    for code in codes::ALL {
        for (w, fill) in [(16, code.k), (127, code.k / 2), (128, code.k), (129, 3)] {
            let mut reader = Reader::short(code, w, fill, fault);
            let unit = reader.draft(fill, random).bytes();
            reader.compare(&unit)?;
            each_value(&mut reader, &unit, 16)?;
            stats += reader.stats;
        }
    }
    Ok(stats)
}

/// Forms of a number: shortest, padded up to seven bytes, and unfinished.
fn forms(value: usize) -> Vec<Vec<u8>> {
    let shortest = units::sdnv(value).len();
    let mut forms: Vec<Vec<u8>> = (0..=7 - shortest).map(|zeros| padded_sdnv(value, zeros)).collect();
    let mut unfinished = units::sdnv(value);
    *unfinished.last_mut().unwrap() |= 0x80;
    forms.push(unfinished);
    forms
}

/// Numbers about the borders of one to five groups and of 32 bits.
fn border_numbers() -> Vec<usize> {
    let borders = [1 << 7, 1 << 14, 1 << 21, 1 << 28, 1 << 32, 1 << 35];
    let mut numbers = vec![0, 1, 2, 3, 512, 576, 640, 768, 2048, 2304, 2560, 3072, 1 << 31, (1 << 33) + 3, (1 << 32) + 512];
    numbers.extend(borders.into_iter().flat_map(|border| [border - 2, border - 1, border, border + 1]));
    numbers
}

/// All forms of such numbers as each of the four parameters and as lengths.
pub fn numbers(fault: Fault, random: &mut Random) -> Result<Stats, Difference> {
    let code = &codes::C1;
    let mut reader = Reader::new(code, 3, fault);
    for number in border_numbers().into_iter().chain([3, code.k, code.n, 0]) {
        for form in forms(number) {
            for slot in 0..4 {
                let mut parameters = [3, code.k, code.n, 0].map(units::sdnv);
                parameters[slot] = form.clone();
                let mut draft = reader.draft(1 + random.below(code.n), random);
                draft.extensions = vec![Extension::new(1, parameters.concat())];
                reader.compare(&draft.bytes())?;
            }
            for kind in [1, 2] {
                let mut draft = reader.draft(1 + random.below(code.n), random);
                draft.extensions[0].kind = kind;
                draft.extensions[0].length = form.clone();
                reader.compare(&draft.bytes())?;
            }
        }
    }
    Ok(reader.stats)
}

/// Type 1 with all forms of its true length, of lengths that leave out or take in some bytes, with fewer and more numbers, and cut.
pub fn values(fault: Fault, random: &mut Random) -> Result<Stats, Difference> {
    let code = &codes::C1;
    let mut reader = Reader::new(code, 3, fault);
    let proper = reader.draft(1, random);
    let value = &proper.extensions[0].value;
    let mut extensions = Vec::new();
    for length in value.len() - 2..value.len() + 5 {
        extensions.extend(forms(length).into_iter().map(|length| Extension { kind: 1, length, value: value.clone() }));
    }
    for numbers in [&[3, code.k, code.n][..], &[3, code.k, code.n, 0, 0], &[0; 4]] {
        extensions.push(Extension::new(1, numbers.iter().flat_map(|&number| units::sdnv(number)).collect()));
    }
    extensions.extend((0..value.len()).map(|cut| Extension::new(1, value[..cut].to_vec())));
    for extension in extensions {
        let mut draft = reader.draft(1 + random.below(code.n), random);
        draft.extensions = vec![extension];
        reader.compare(&draft.bytes())?;
    }
    Ok(reader.stats)
}

/// Every extension count, true and not, with type 1 at every place, twice or missing.
pub fn counts(fault: Fault, random: &mut Random) -> Result<Stats, Difference> {
    let code = &codes::C1;
    let mut reader = Reader::new(code, 2, fault);
    for count in 1..=255usize {
        let mut draft = reader.draft(1 + random.below(code.n), random);
        let coding = draft.extensions[0].clone();
        let others: Vec<Extension> =
            (0..count).map(|i| Extension::new(2 + random.below(253) as u8, vec![i as u8; random.below(4)])).collect();
        draft.extensions = others.clone();
        reader.compare(&draft.bytes())?;
        for place in [0, random.below(count), count - 1] {
            draft.extensions = others.clone();
            draft.extensions[place] = coding.clone();
            reader.compare(&draft.bytes())?;
            for said in [count - 1, count + 1] {
                let wrong = Draft { count: Some(said as u8), ..draft.clone() };
                reader.compare(&wrong.bytes())?;
            }
            draft.extensions[random.below(count)] = coding.clone();
            reader.compare(&draft.bytes())?;
        }
    }
    Ok(reader.stats)
}

/// Random units, from readable to nonsense.
pub fn random_units(rounds: usize, fault: Fault, random: &mut Random) -> Result<Stats, Difference> {
    let mut stats = Stats::default();
    for (code, w, fill) in [
        (&codes::C1, 1, 512),
        (&codes::C2, 2, 1500),
        (&codes::C4, 16, 512),
        (&codes::C5, 3, 2048),
        (&codes::C7, 2, 100),
        (&codes::C8, 1, 2048),
    ] {
        let mut reader = Reader::short(code, w, fill, fault);
        for _ in 0..rounds {
            let unit = any_unit(&reader, code, w, random);
            reader.compare(&unit)?;
        }
        stats += reader.stats;
    }
    Ok(stats)
}

/// Of random units: whatever comes after the byte that decides, the answer stays; cut off before it, the unit ends early.
pub fn deciding_bytes(rounds: usize, random: &mut Random) -> Result<Stats, Difference> {
    let (code, w) = (&codes::C1, 3);
    let reader = Reader::new(code, w, Fault::None);
    let mut stats = Stats::default();
    for _ in 0..rounds {
        let unit = any_unit(&reader, code, w, random);
        stats.count_read(decided(&unit, random)?);
    }
    Ok(stats)
}

fn decided(unit: &[u8], random: &mut Random) -> Result<Result<UnitParts, u8>, Difference> {
    let (answer, needed) = match decide(unit) {
        Ok(parts) => (Ok(parts), parts.symbol),
        Err(Refused { number, at }) => (Err(number), unit.len().min(at + 1)),
    };
    let mut other = unit.to_vec();
    for _ in 0..4 {
        fill(&mut other[needed..], random);
        same(ours::read(&other), answer, || format!("read of {other:02X?}, {needed} bytes as in {unit:02X?}"))?;
    }
    for cut in 0..needed {
        let early = if cut < 6 { 5 } else { 6 };
        same(ours::read(&unit[..cut]), Err(early), || format!("read of {cut} bytes of {unit:02X?}"))?;
    }
    Ok(answer)
}

/// A list of extensions, or noise.
pub fn any_unit(reader: &Reader, code: &Code, w: usize, random: &mut Random) -> Vec<u8> {
    if random.chance(0.2) {
        return noise(random);
    }
    let mut draft = reader.draft(random.below(code.n + 3), random);
    draft.extensions = (0..1 + random.below(4)).map(|_| any_extension(code, w, random)).collect();
    if random.chance(0.1) {
        draft.count = Some(random.below(6) as u8);
    }
    if random.chance(0.05) {
        draft.symbol.truncate(random.below(w + 1));
    }
    draft.bytes()
}

fn noise(random: &mut Random) -> Vec<u8> {
    let mut unit = vec![0; random.below(40)];
    fill(&mut unit, random);
    if random.chance(0.8) {
        unit.splice(..unit.len().min(2), [0x1A, 1 + random.below(3) as u8]);
    }
    unit
}

/// Any bytes, or edge bytes.
fn fill(bytes: &mut [u8], random: &mut Random) {
    if random.chance(0.5) {
        random.fill(bytes);
    } else {
        bytes.iter_mut().for_each(|byte| *byte = EDGES[random.below(EDGES.len())]);
    }
}

fn any_extension(code: &Code, w: usize, random: &mut Random) -> Extension {
    let kind = [1, 1, 2, 254, 1 + random.below(254) as u8, random.below(256) as u8][random.below(6)];
    let value = if kind == 1 || random.chance(0.2) {
        let mut numbers = [w, code.k, code.n, 0].map(|number| some_form(number, random));
        if random.chance(0.2) {
            numbers[random.below(4)] = any_sdnv(random);
        }
        numbers.concat()
    } else {
        let mut value = vec![0; random.below(12)];
        random.fill(&mut value);
        value
    };
    let length = match random.below(20) {
        0 => any_sdnv(random),
        1 => some_form(value.len() + 1, random),
        2 => some_form(value.len().saturating_sub(1), random),
        _ => some_form(value.len(), random),
    };
    Extension { kind, length, value }
}

/// Seldom padded.
fn some_form(number: usize, random: &mut Random) -> Vec<u8> {
    let zeros = if random.chance(0.03) { 1 + random.below(5) } else { 0 };
    padded_sdnv(number, zeros)
}

fn any_sdnv(random: &mut Random) -> Vec<u8> {
    let numbers = border_numbers();
    let number = numbers[random.below(numbers.len())];
    let forms = forms(number);
    forms[random.below(forms.len())].clone()
}
