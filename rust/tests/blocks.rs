//! Lists of takes and closes against the model, byte for byte after every call.
mod compare;
mod model;

use compare::low_weight::{lightest, lightest_of};
use compare::{cases, closes, ours, suite, Difference, Stats};
use model::answers::{Report, Taken, Verdict};
use model::refusals::Record;
use model::{codes, encoder, units, Code, Fault};
use std::thread;
use std::time::{Duration, Instant};

#[test]
fn lists_of_calls_agree_with_the_model() {
    let start = Instant::now();
    let until = start + Duration::from_secs(compare::seconds());
    let by_code = thread::scope(|scope| {
        let threads = codes::ALL.map(|code| scope.spawn(move || blocks_of(code, until)));
        threads.map(|thread| thread.join().unwrap().unwrap())
    });
    let blocks: Vec<String> = codes::ALL.iter().zip(&by_code).map(|(code, stats)| format!("C{} {}", code.number, stats.blocks)).collect();
    let mut stats = Stats::default();
    for of_code in by_code {
        assert!([of_code.whole, of_code.ambiguous, of_code.inconsistent].iter().all(|&times| times >= 10), "{of_code:?}");
        assert!([of_code.refused[11], of_code.refused[14]].iter().all(|&times| times >= 10), "{of_code:?}");
        stats += of_code;
    }
    println!(
        "compared {} blocks ({}), {} calls; kept {}, repeated {}, whole {}, ambiguous {}, inconsistent {}, refused {:?}; seed {}, {:.0} s",
        stats.blocks,
        blocks.join(", "),
        stats.calls,
        stats.kept,
        stats.repeated,
        stats.whole,
        stats.ambiguous,
        stats.inconsistent,
        stats.refusals(),
        compare::seed(),
        start.elapsed().as_secs_f64()
    );
}

fn blocks_of(code: &'static Code, until: Instant) -> Result<Stats, Difference> {
    let seed = compare::seed().wrapping_mul(16).wrapping_add(code.number as u64);
    let mut stats = suite::chosen_blocks(code, Fault::None, seed)?;
    stats += suite::short_closes(code, Fault::None, seed)?;
    stats += suite::short_lists(code, Fault::None, seed)?;
    stats += suite::random_blocks(code, Fault::None, !seed, until)?;
    Ok(stats)
}

/// Of a full block.
fn record(code: &Code, w: usize) -> Record {
    Record { code: code.number, w, protocol: 2, lsc: 9, fill: code.k }
}

/// The codeword of random information.
fn word(code: &Code, w: usize) -> Vec<u8> {
    short_word(code, w, code.k)
}

/// The same, of so many symbols.
fn short_word(code: &Code, w: usize, fill: usize) -> Vec<u8> {
    let mut information = vec![0; fill * w];
    compare::seeded().fill(&mut information);
    encoder::codeword(code, w, &information)
}

/// A sample block: takes the heard symbols of a word, closes, and returns the marks.
fn sample(code: &Code, w: usize, word: &[u8], heard: impl Fn(usize) -> bool, expected: Report) -> Vec<u8> {
    short_sample(record(code, w), word, heard, expected)
}

/// The same, of a block of any fill; idle positions are not heard.
fn short_sample(record: Record, word: &[u8], heard: impl Fn(usize) -> bool, expected: Report) -> Vec<u8> {
    let (code, w) = (Code::of_number(record.code).unwrap(), record.w);
    let (mut symbols, mut marks) = (vec![1; code.n * w], vec![1; code.n]);
    ours::open(record, &mut symbols, &mut marks).unwrap();
    let size = units::write(code, w, 1, 1, 1, &word[..w]).len();
    let sent = |position: usize| !(record.fill..code.k).contains(&position);
    for position in (0..code.n).filter(|&position| sent(position) && heard(position)) {
        let mut unit = vec![0; size];
        ours::write(record, position + 1, &word[position * w..][..w], &mut unit).unwrap();
        assert_eq!(ours::take(record, &mut symbols, &mut marks, &unit), Ok(Taken::Kept));
    }
    let (mut words, mut bytes) = (vec![1; code.work_words()], vec![1; code.m * w]);
    assert_eq!(ours::close(record, &mut symbols, &mut marks, &mut words, &mut bytes), Ok(expected));
    if expected.verdict == Verdict::Whole {
        assert_eq!(symbols, word);
    }
    marks
}

#[test]
fn c1_from_511_information_symbols_and_the_last_parity_symbol() {
    let expected = Report { verdict: Verdict::Whole, heard: 512, filled: 256, left: 0 };
    sample(&codes::C1, 2, &word(&codes::C1, 2), |position| (1..=511).contains(&position) || position == 767, expected);
}

#[test]
fn c1_without_the_first_samples_codeword() {
    let lost = |position: usize| match position.checked_sub(512) {
        None => position == 0,
        Some(j) => [41..=59, 72..=97, 222..=255].iter().any(|range| range.contains(&j)),
    };
    let expected = Report { verdict: Verdict::Ambiguous, heard: 688, filled: 0, left: 80 };
    sample(&codes::C1, 1, &[0; 768], |position| !lost(position), expected);
    let expected = Report { verdict: Verdict::Ambiguous, heard: 687, filled: 1, left: 80 };
    let marks = sample(&codes::C1, 1, &[0; 768], |position| !lost(position) && position != 512 + 60, expected);
    assert_eq!(marks[512 + 60], 2);
}

#[test]
fn c2_with_nothing_heard_and_with_a_wrong_last_symbol() {
    let expected = Report { verdict: Verdict::Ambiguous, heard: 0, filled: 1, left: 3071 };
    let marks = sample(&codes::C2, 1, &[0; 3072], |_| false, expected);
    assert_eq!(marks[3071], 2);
    let expected = Report { verdict: Verdict::Inconsistent, heard: 1, filled: 0, left: 3071 };
    sample(&codes::C2, 1, &[1; 3072], |position| position == 3071, expected);
}

/// All information symbols but the first or the last one are heard, and the last parity symbol: k in all.
#[test]
fn from_all_information_symbols_but_one_and_the_last_parity_symbol() {
    // With what is left without the last information symbol, which the last parity symbol of C5, C7 and C8 doesn't sum.
    for (code, without_last) in [(&codes::C4, 0), (&codes::C5, 125), (&codes::C7, 29), (&codes::C8, 37)] {
        let sent = word(code, 2);
        for (lost, left) in [(0, 0), (code.k - 1, without_last)] {
            let verdict = if left == 0 { Verdict::Whole } else { Verdict::Ambiguous };
            let expected = Report { verdict, heard: code.k, filled: code.m - left, left };
            sample(code, 2, &sent, |position| position != lost && !(code.k..code.n - 1).contains(&position), expected);
        }
    }
}

/// The last parity symbol and the information symbols that it sums: one of them lost, then none, then a wrong one.
#[test]
fn the_last_parity_symbol_and_what_it_sums() {
    for (code, summed) in [(&codes::C5, 1024), (&codes::C7, 384), (&codes::C8, 128)] {
        let mut sent = word(code, 1);
        let last = code.n - 1;
        let expected = Report { verdict: Verdict::Ambiguous, heard: summed, filled: 1, left: last - summed };
        let marks = sample(code, 1, &sent, |position| position < summed - 1 || position == last, expected);
        assert_eq!(marks[summed - 1], 2, "C{}", code.number);
        let expected = Report { verdict: Verdict::Ambiguous, heard: summed + 1, filled: 0, left: last - summed };
        sample(code, 1, &sent, |position| position < summed || position == last, expected);
        sent[summed - 1] ^= 1;
        let expected = Report { verdict: Verdict::Inconsistent, ..expected };
        sample(code, 1, &sent, |position| position < summed || position == last, expected);
    }
}

/// Far fewer than m are lost and the block is ambiguous; with any one of them it is whole.
#[test]
fn lightest_codewords_lost() {
    for (code, weight) in [(&codes::C1, 26), (&codes::C2, 31), (&codes::C4, 10), (&codes::C5, 16), (&codes::C7, 7), (&codes::C8, 16)] {
        lightest_lost(code, code.k, &lightest(code)[0], weight);
    }
}

/// The same in short blocks: of one symbol, of a table row and one symbol, and of half of all.
#[test]
fn lightest_codewords_of_short_blocks_lost() {
    for (code, weights) in [
        (&codes::C1, [80, 42, 14]),
        (&codes::C2, [625, 50, 34]),
        (&codes::C4, [62, 16, 14]),
        (&codes::C5, [110, 42, 29]),
        (&codes::C7, [22, 18, 9]),
        (&codes::C8, [168, 58, 15]),
    ] {
        for (fill, weight) in [1, code.q + 1, code.k / 2].into_iter().zip(weights) {
            lightest_lost(code, fill, &lightest_of(code, fill)[0], weight);
        }
    }
}

/// The support of these information symbols is lost.
fn lightest_lost(code: &Code, fill: usize, information: &[usize], weight: usize) {
    let lost = encoder::support(code, information);
    assert_eq!(lost.len(), weight, "C{}, fill {fill}", code.number);
    let record = Record { fill, ..record(code, 1) };
    let (word, sent) = (short_word(code, 1, fill), fill + code.m);
    let expected = Report { verdict: Verdict::Ambiguous, heard: sent - weight, filled: 0, left: weight };
    short_sample(record, &word, |position| !lost.contains(&position), expected);
    for heard in &lost {
        let expected = Report { verdict: Verdict::Whole, heard: sent - weight + 1, filled: weight - 1, left: 0 };
        short_sample(record, &word, |position| !lost.contains(&position) || position == *heard, expected);
    }
}

/// Fill 1: more than m are missing, yet every parity symbol that doesn't sum u_0 is zero and is filled. One of the others decides all.
#[test]
fn fill_1_with_nothing_heard() {
    for (code, filled) in [(&codes::C1, 177), (&codes::C2, 400), (&codes::C4, 67), (&codes::C5, 403), (&codes::C7, 43), (&codes::C8, 89)] {
        let record = Record { fill: 1, ..record(code, 3) };
        let word = short_word(code, 3, 1);
        let support = encoder::support(code, &[0]);
        let expected = Report { verdict: Verdict::Ambiguous, heard: 0, filled, left: 1 + code.m - filled };
        let marks = short_sample(record, &word, |_| false, expected);
        let due = |i: usize| if i < code.k || support.contains(&i) { 0 } else { 2 };
        assert!(marks.iter().enumerate().all(|(i, &mark)| mark == due(i)), "C{}", code.number);
        for one in support {
            let expected = Report { verdict: Verdict::Whole, heard: 1, filled: code.m, left: 0 };
            short_sample(record, &word, |position| position == one, expected);
        }
    }
}

/// Fill 1, only p_0 heard, which u_0 doesn't give: zero, and it says nothing; another value, and no codeword agrees. In a full block it may be.
#[test]
fn fill_1_with_a_parity_symbol_that_must_be_zero() {
    for code in codes::ALL {
        assert!(!code.touched(0).any(|row| row == 0), "C{}", code.number);
        let left = encoder::support(code, &[0]).len();
        let only = |position: usize| position == code.k;
        let short = Record { fill: 1, ..record(code, 1) };
        let ambiguous = Report { verdict: Verdict::Ambiguous, heard: 1, filled: code.m - left, left };
        short_sample(short, &vec![0; code.n], only, ambiguous);
        let inconsistent = Report { verdict: Verdict::Inconsistent, heard: 1, filled: 0, left: code.m };
        short_sample(short, &vec![1; code.n], only, inconsistent);
        let last = if code.number == 2 { 1 } else { 0 };
        let expected = Report { verdict: Verdict::Ambiguous, heard: 1, filled: last, left: code.n - 1 - last };
        sample(code, 1, &vec![1; code.n], only, expected);
    }
}

/// Of each fill: the codeword of the last information symbol that is sent, lost whole, and but for that symbol.
#[test]
fn last_sent_information_symbols_codeword_lost() {
    let mut random = compare::seeded();
    for code in codes::ALL {
        let step = if code.n < 1000 { 1 } else { 7 };
        for fill in (1..=code.k).step_by(step).chain([code.k - 1, code.k]) {
            let record = Record { fill, ..record(code, 1) };
            let mut symbols = short_word(code, 1, fill);
            random.fill(&mut symbols[fill..code.k]);
            let mut marks = vec![1; code.n];
            for position in encoder::support(code, &[fill - 1]) {
                marks[position] = 0;
            }
            let mut with_it = marks.clone();
            with_it[fill - 1] = 1;
            for (marks, verdict) in [(marks, Verdict::Ambiguous), (with_it, Verdict::Whole)] {
                let label = format!("C{}, fill {fill}, {verdict:?} due", code.number);
                let stats = closes::close(record, symbols.clone(), marks, &label, Fault::None, random.next()).unwrap();
                assert_eq!(
                    [stats.whole, stats.ambiguous],
                    [verdict == Verdict::Whole, verdict == Verdict::Ambiguous].map(usize::from),
                    "{label}"
                );
            }
        }
    }
}

/// A block that is sent with one information symbol more than the ground knows of doesn't agree; of one more on the ground the symbol is zero.
#[test]
fn another_fill_on_the_ground() {
    for code in codes::ALL {
        let fill = code.k / 2;
        let word = encoder::codeword(code, 1, &vec![7; fill]);
        for (ground, verdict, filled) in [(fill - 1, Verdict::Inconsistent, 0), (fill, Verdict::Whole, 0), (fill + 1, Verdict::Whole, 1)] {
            let expected = Report { verdict, heard: fill.min(ground) + code.m, filled, left: 0 };
            short_sample(Record { fill: ground, ..record(code, 1) }, &word, |position| position != fill, expected);
        }
    }
}

/// The codeword of each single information symbol, lost whole: what was sent there can't be told from that plus the codeword.
#[test]
fn each_single_information_symbols_codeword_lost() {
    for code in codes::ALL {
        let record = record(code, 1);
        let word = encoder::codeword(code, 1, &cases::information(code.k, 1, &mut compare::seeded()));
        for x in 0..code.k {
            let (mut symbols, mut marks) = (word.clone(), vec![1; code.n]);
            for position in encoder::support(code, &[x]) {
                symbols[position] = 0;
                marks[position] = 0;
            }
            let (mut words, mut bytes) = (vec![x as u64; code.m * (code.n / 64 + 1)], vec![x as u8; code.m]);
            let (mut model_symbols, mut model_marks) = (symbols.clone(), marks.clone());
            let (mut model_words, mut model_bytes) = (words.clone(), bytes.clone());
            let model = model::calls::close(record, &mut model_symbols, &mut model_marks, &mut model_words, &mut model_bytes, Fault::None);
            let answer = ours::close(record, &mut symbols, &mut marks, &mut words, &mut bytes);
            assert_eq!(answer, model, "C{}, u_{x}", code.number);
            assert!(matches!(answer, Ok(Report { verdict: Verdict::Ambiguous, .. })), "C{}, u_{x}", code.number);
            assert!(symbols == model_symbols && marks == model_marks, "C{}, u_{x}", code.number);
            assert!(words == model_words && bytes == model_bytes, "C{}, u_{x}", code.number);
        }
    }
}
