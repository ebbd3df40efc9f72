//! Codewords with few symbols that aren't zero, found by search.
use crate::model::{generator, Code};
use std::collections::{BTreeMap, BTreeSet};
use std::sync::{Mutex, OnceLock};

/// How many sets of each size are kept.
const KEPT: usize = 64;
/// The most information symbols in a set.
const MOST: usize = 6;

/// Sets of information symbols.
type Sets = Vec<Vec<usize>>;

/// Information symbols, all of one value, and the parity symbols that aren't zero with them, 64 to a word.
#[derive(Clone)]
struct Word {
    information: BTreeSet<usize>,
    parity: Vec<u64>,
}

impl Word {
    fn single(rows: &[Vec<u8>], x: usize) -> Word {
        let mut parity = vec![0; rows.len().div_ceil(64)];
        for (j, row) in rows.iter().enumerate() {
            parity[j / 64] |= u64::from(row[x]) << (j % 64);
        }
        Word { information: BTreeSet::from([x]), parity }
    }

    fn with(&self, other: &Word) -> Word {
        Word {
            information: &self.information | &other.information,
            parity: self.parity.iter().zip(&other.parity).map(|(a, b)| a ^ b).collect(),
        }
    }

    fn parity_weight_with(&self, other: &Word) -> u32 {
        self.parity.iter().zip(&other.parity).map(|(a, b)| (a ^ b).count_ones()).sum()
    }

    fn weight(&self) -> u32 {
        self.information.len() as u32 + self.parity.iter().map(|word| word.count_ones()).sum::<u32>()
    }
}

/// Sets of two information symbols and more whose codewords have low weight, the lowest first. They are searched for once.
pub fn lightest(code: &Code) -> &'static [Vec<usize>] {
    static FOUND: [OnceLock<Sets>; 9] = [const { OnceLock::new() }; 9];
    FOUND[code.number].get_or_init(|| {
        let singles = singles(code, code.k);
        sets(search(code, &singles))
    })
}

/// The best three sets of the first so many information symbols, single ones too. They are searched for once.
pub fn lightest_of(code: &Code, fill: usize) -> Sets {
    static FOUND: Mutex<BTreeMap<(usize, usize), Sets>> = Mutex::new(BTreeMap::new());
    let known = FOUND.lock().unwrap().get(&(code.number, fill)).cloned();
    known.unwrap_or_else(|| {
        let singles = singles(code, fill);
        let found = search(code, &singles);
        let mut sets = sets([singles, found].concat());
        sets.truncate(3);
        FOUND.lock().unwrap().insert((code.number, fill), sets.clone());
        sets
    })
}

fn singles(code: &Code, fill: usize) -> Vec<Word> {
    let rows = generator::rows(code);
    (0..fill).map(|x| Word::single(&rows, x)).collect()
}

/// The sets of words, the lightest first.
fn sets(mut words: Vec<Word>) -> Sets {
    words.sort_by_key(Word::weight);
    words.into_iter().map(|word| word.information.into_iter().collect()).collect()
}

/// All pairs are tried, and then the best sets of each size with every other symbol.
fn search(code: &Code, singles: &[Word]) -> Vec<Word> {
    let mut sizes = vec![larger(code, singles, singles)];
    while sizes.len() + 1 < MOST {
        sizes.push(larger(code, sizes.last().unwrap(), singles));
    }
    sizes.concat()
}

/// The best sets with one symbol more, no two of the same table rows.
fn larger(code: &Code, sets: &[Word], singles: &[Word]) -> Vec<Word> {
    let mut words = Vec::new();
    for set in sets {
        for row in singles.chunks(code.q) {
            let others = row.iter().filter(|single| set.information.is_disjoint(&single.information));
            words.extend(others.min_by_key(|single| set.parity_weight_with(single)).map(|single| set.with(single)));
        }
    }
    words.sort_by_key(Word::weight);
    let mut chosen = BTreeSet::new();
    words.retain(|word| chosen.insert(word.information.iter().map(|x| x / code.q).collect::<Vec<usize>>()));
    words.truncate(KEPT);
    words
}
