//! Single closes, on buffers that no list of calls leaves.
use super::cases::Case;
use super::lists::dirty;
use super::random::Random;
use super::{all_counted, ours, same, same_buffer, Difference, Stats};
use crate::model::refusals::Record;
use crate::model::{calls as model, Code, Fault};

/// Closes in the archive and in the model, with work buffers of random content.
pub fn close(record: Record, mut symbols: Vec<u8>, mut marks: Vec<u8>, label: &str, fault: Fault, dirt: u64) -> Result<Stats, Difference> {
    let code = Code::of_number(record.code).expect("closes are for codes that there are");
    let (mut words, mut bytes) = dirty(code.work_words(), code.m * record.w, dirt);
    let mut due = (symbols.clone(), marks.clone(), words.clone(), bytes.clone());
    let answer = ours::close(record, &mut symbols, &mut marks, &mut words, &mut bytes);
    same(answer, model::close(record, &mut due.0, &mut due.1, &mut due.2, &mut due.3, fault), || label.to_string())?;
    same_buffer(&marks, &due.1, || format!("{label}: marks"))?;
    same_buffer(&symbols, &due.0, || format!("{label}: symbols"))?;
    same_buffer(&words, &due.2, || format!("{label}: work words"))?;
    same_buffer(&bytes, &due.3, || format!("{label}: work bytes"))?;
    all_counted(record, answer, || label.to_string())?;
    let mut stats = Stats { blocks: 1, calls: 1, ..Stats::default() };
    stats.count_closed(answer);
    Ok(stats)
}

/// Closes a case: what came is heard. At all other positions there are any bytes, and marks 0 and 2; at idle ones also mark 1. Now and then with a
/// mark that is refused, which may stand at an idle position, too.
pub fn compare(case: &Case, fault: Fault, random: &mut Random) -> Result<Stats, Difference> {
    let (code, w) = (case.code, case.w);
    let record = Record { code: code.number, w, protocol: random.below(8), lsc: 1 + random.below(65534), fill: case.fill };
    let (mut symbols, mut marks) = (case.symbols.clone(), vec![1; code.n]);
    let at_idle = random.below(4);
    for position in (0..code.n).filter(|&position| case.lost[position]) {
        random.fill(&mut symbols[position * w..][..w]);
        marks[position] = match (case.is_idle(position), at_idle) {
            (true, 3) => random.below(3),
            (true, all) => all,
            (false, _) => 2 * random.below(2),
        } as u8;
    }
    let label = format!("close of {}, any bytes where nothing came", case.label);
    let mut stats = Stats::default();
    if random.chance(0.1) {
        let position = [case.fill - 1, case.fill % code.n, code.k - 1, code.k, random.below(code.n)][random.below(5)];
        let mut marks = marks.clone();
        marks[position] = [3, 4, 255][random.below(3)];
        stats += close(record, symbols.clone(), marks, &format!("{label}, a mark at {position}"), fault, random.next())?;
    }
    stats += close(record, symbols, marks, &label, fault, random.next())?;
    Ok(stats)
}
