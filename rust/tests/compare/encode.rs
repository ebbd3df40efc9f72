//! Encode, on random information.
use super::cases::{any_fill, chosen_fills, information};
use super::random::Random;
use super::{ours, same, same_buffer, Difference, Stats};
use crate::model::refusals::Record;
use crate::model::{calls as model, Code, Fault};

/// So many full blocks of symbols of w bytes.
pub fn compare(code: &Code, w: usize, rounds: usize, fault: Fault, random: &mut Random) -> Result<Stats, Difference> {
    for _ in 0..rounds {
        encode(code, w, &information(code.k, w, random), fault, random)?;
    }
    Ok(Stats { encoded: rounds, ..Stats::default() })
}

/// Blocks of chosen and of any fills, and each filled up with zeros: they have the same parity.
pub fn compare_short(code: &Code, w: usize, rounds: usize, fault: Fault, random: &mut Random) -> Result<Stats, Difference> {
    let mut fills = chosen_fills(code);
    fills.extend((0..rounds).map(|_| any_fill(code, random)));
    for &fill in &fills {
        let mut information = information(fill, w, random);
        let short = encode(code, w, &information, fault, random)?;
        information.resize(code.k * w, 0);
        let full = encode(code, w, &information, fault, random)?;
        same_buffer(&short, &full, || format!("encode of C{}, W {w}, fill {fill}, and filled up", code.number))?;
    }
    Ok(Stats { encoded: 2 * fills.len(), ..Stats::default() })
}

/// The parity of so many symbols. Protocol ID and LSC may be any.
fn encode(code: &Code, w: usize, information: &[u8], fault: Fault, random: &mut Random) -> Result<Vec<u8>, Difference> {
    let fill = information.len() / w;
    let record = Record { code: code.number, w, protocol: random.below(16), lsc: random.below(70_000), fill };
    let mut parity = vec![0; code.m * w];
    random.fill(&mut parity);
    let mut expected = parity.clone();
    let answer = ours::encode(record, information, &mut parity);
    let name = || format!("encode of C{}, W {w}, fill {fill}", code.number);
    same(answer, model::encode(record, information, &mut expected, fault), name)?;
    same_buffer(&parity, &expected, || format!("{}, parity", name()))?;
    Ok(parity)
}
