//! Makes a list of calls of a case: its units in some order, others between them that change nothing or little, and closes.
use super::cases::Case;
use super::drafts::{Draft, Extension};
use super::lists::{Call, List};
use super::random::Random;
use crate::model::codes;
use crate::model::refusals::Record;

/// What may come between the units of a case.
#[derive(Clone, Copy, PartialEq)]
pub enum Between {
    /// Units that leave the case as it is.
    Harmless,
    /// Also units with any byte altered, which may be kept.
    Anything,
}

pub fn list(case: &Case, between: Between, random: &mut Random) -> List {
    let record = Record { code: case.code.number, w: case.w, protocol: random.below(8), lsc: 1 + random.below(65534), fill: case.fill };
    let mut script = Script { case, record, between, heard: Vec::new(), calls: Vec::new(), random };
    script.units();
    script.close();
    script.late();
    List { label: case.label.clone(), record, calls: script.calls }
}

struct Script<'a> {
    case: &'a Case,
    record: Record,
    between: Between,
    /// Positions whose unit is in the list already.
    heard: Vec<usize>,
    calls: Vec<Call>,
    random: &'a mut Random,
}

impl Script<'_> {
    /// All that isn't lost, with disturbance and a few closes in between.
    fn units(&mut self) {
        let n = self.case.code.n;
        let mut order: Vec<usize> = if self.random.chance(0.7) { self.random.shuffled(n) } else { (0..n).collect() };
        if self.random.chance(0.2) {
            order.reverse();
        }
        order.retain(|&position| !self.case.lost[position]);
        let most = if n > 1000 { 2 } else { 4 };
        let closes: Vec<usize> = (0..self.random.below(most)).map(|_| self.random.below(order.len() + 1)).collect();
        for (index, position) in order.into_iter().enumerate() {
            if closes.contains(&index) {
                self.close();
            }
            if self.random.chance(0.08) {
                self.disturb();
            }
            self.hear(position);
        }
        for _ in 0..self.random.below(4) {
            self.disturb();
        }
    }

    /// What follows a verdict: more closes, symbols that were lost, right or wrong, and a verdict again.
    fn late(&mut self) {
        for _ in 0..self.random.below(3) {
            let lost: Vec<usize> = (0..self.case.code.n).filter(|&i| self.case.lost[i] && !self.case.is_idle(i)).collect();
            match self.random.below(3) {
                _ if lost.is_empty() => {}
                0 => {
                    for _ in 0..self.random.below(lost.len()) {
                        let position = self.one_of(&lost);
                        self.hear(position);
                    }
                }
                1 => {
                    let position = self.one_of(&lost);
                    let unit = self.altered(position);
                    self.calls.push(Call::Take(unit));
                }
                _ => {}
            }
            self.disturb();
            self.close();
        }
    }

    fn one_of(&mut self, positions: &[usize]) -> usize {
        positions[self.random.below(positions.len())]
    }

    fn hear(&mut self, position: usize) {
        let mut draft = self.draft(position);
        if self.random.chance(0.1) {
            self.dress(&mut draft);
        }
        self.calls.push(Call::Take(draft.bytes()));
        self.heard.push(position);
    }

    fn close(&mut self) {
        let (words, bytes) = (self.case.code.work_words(), self.case.code.m * self.case.w);
        self.calls.push(Call::Close { words, bytes, dirt: self.random.next() });
    }

    fn draft(&self, position: usize) -> Draft {
        let symbol = &self.case.symbols[position * self.case.w..][..self.case.w];
        Draft::proper(self.case.code, self.case.w, self.record.protocol, self.record.lsc, position + 1, symbol)
    }

    /// The unit of a position with another symbol.
    fn altered(&mut self, position: usize) -> Vec<u8> {
        let mut draft = self.draft(position);
        draft.symbol[self.random.below(self.case.w)] ^= 1 + self.random.below(255) as u8;
        draft.bytes()
    }

    /// Other extensions besides.
    fn dress(&mut self, draft: &mut Draft) {
        for _ in 0..1 + self.random.below(3) {
            let mut value = vec![0; self.random.below(200)];
            self.random.fill(&mut value);
            let other = Extension::new(2 + self.random.below(253) as u8, value);
            draft.extensions.insert(self.random.below(draft.extensions.len() + 1), other);
        }
    }

    /// A call that the case doesn't need.
    fn disturb(&mut self) {
        if self.random.chance(0.1) {
            return self.close_refused();
        }
        let position = match self.heard.len() {
            0 => return self.calls.push(Call::Take(Vec::new())),
            heard => self.heard[self.random.below(heard)],
        };
        let unit = if self.between == Between::Anything && self.random.chance(0.5) {
            let position = self.random.below(self.case.code.n);
            let mut unit = self.draft(position).bytes();
            let place = self.random.below(unit.len());
            unit[place] ^= 1 << self.random.below(8);
            unit
        } else {
            self.useless(position)
        };
        self.calls.push(Call::Take(unit));
    }

    /// A unit at a heard position that is a repetition or refused.
    fn useless(&mut self, position: usize) -> Vec<u8> {
        let mut draft = self.draft(position);
        let code = self.case.code;
        if self.case.fill < code.k && self.random.chance(0.15) {
            return self.idle();
        }
        match self.random.below(17) {
            0 | 1 => {}
            2 | 3 => return self.altered(position),
            4 => draft.lsc ^= 1 << self.random.below(16),
            5 => draft.protocol ^= 1 << self.random.below(3),
            6 => draft.lwc = [0, code.n as u16 + 1, 65535][self.random.below(3)],
            7 => draft.symbol.push(0),
            8 => draft.symbol.truncate(self.case.w - 1),
            9 => draft.version = [0, 2, 15][self.random.below(3)],
            10 => draft.extensions[0].kind = [0, 2, 255][self.random.below(3)],
            11 => {
                let mut numbers = [self.case.w, code.k, code.n, 0];
                numbers[self.random.below(4)] += 1;
                draft.extensions = vec![Extension::coding(numbers)];
            }
            12 => {
                let other = codes::ALL[self.random.below(codes::ALL.len())];
                draft.extensions = vec![Extension::coding([self.case.w, other.k, other.n, 0])];
            }
            13 => draft.extensions.push(draft.extensions[0].clone()),
            14 => draft.extensions[0].length.insert(0, 0x80),
            15 => draft.extensions[0] = Extension::new(1, [&[0x80], &draft.extensions[0].value[..]].concat()),
            _ => {
                let mut unit = draft.bytes();
                unit.truncate(self.random.below(unit.len()));
                return unit;
            }
        }
        draft.bytes()
    }

    /// The unit of an idle position, all zero or not, of any length.
    fn idle(&mut self) -> Vec<u8> {
        let (fill, k) = (self.case.fill, self.case.code.k);
        let position = [fill, k - 1, fill + self.random.below(k - fill)][self.random.below(3)];
        let mut draft = self.draft(position);
        draft.symbol[self.random.below(self.case.w)] ^= self.random.below(2) as u8;
        draft.symbol.resize((self.case.w + self.random.below(3)).saturating_sub(1), 0);
        draft.bytes()
    }

    /// A close with work buffers of other lengths.
    fn close_refused(&mut self) {
        let (words, bytes) = (self.case.code.work_words(), self.case.code.m * self.case.w);
        let (words, bytes) = [(words - 1, bytes), (words + 1, bytes), (words, bytes - 1), (words, bytes + 1), (0, 0)][self.random.below(5)];
        self.calls.push(Call::Close { words, bytes, dirt: self.random.next() });
    }
}
