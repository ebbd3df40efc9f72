//! Which symbols are lost or wrong, chosen by hand and at random.
use super::low_weight::{lightest, lightest_of};
use super::random::Random;
use crate::model::encoder::{codeword, support};
use crate::model::Code;

pub struct Loss {
    pub label: String,
    pub lost: Vec<usize>,
    /// Sent with a wrong byte.
    pub wrong: Vec<usize>,
}

impl Loss {
    fn new(label: impl Into<String>, lost: Vec<usize>) -> Loss {
        Loss { label: label.into(), lost, wrong: Vec::new() }
    }

    /// The positions of a codeword that aren't zero.
    fn of_support(code: &Code, information: &[usize]) -> Loss {
        Loss::new(format!("support of {information:?} lost"), support(code, information))
    }

    /// All of these positions but one.
    fn all_but(positions: &[usize], heard: usize) -> Loss {
        Loss::new(format!("only {heard} heard"), positions.iter().copied().filter(|&position| position != heard).collect())
    }

    /// With more positions lost.
    fn and(&self, more: Vec<usize>) -> Loss {
        Loss::new(format!("{}, and {more:?}", self.label), [&self.lost[..], &more].concat())
    }

    /// With one of its positions heard.
    fn but_for_one(&self, random: &mut Random) -> Loss {
        let heard = self.lost[random.below(self.lost.len())];
        let rest = self.lost.iter().copied().filter(|&position| position != heard).collect();
        Loss::new(format!("{} but for {heard}", self.label), rest)
    }

    fn with_wrong(&self, wrong: Vec<usize>) -> Loss {
        Loss { label: format!("{}, wrong at {wrong:?}", self.label), lost: self.lost.clone(), wrong }
    }

    /// With one wrong byte at one of these positions that is heard, if there is one.
    fn with_one_wrong(&self, sent: &[usize], random: &mut Random) -> Loss {
        let heard: Vec<usize> = sent.iter().copied().filter(|i| !self.lost.contains(i)).collect();
        let wrong = if heard.is_empty() { Vec::new() } else { some(&heard, 1, random) };
        self.with_wrong(wrong)
    }

    /// Symbols of a full block to send it with, and which of them come through.
    pub fn sent(&self, code: &'static Code, w: usize, random: &mut Random) -> Case {
        self.sent_short(code, w, code.k, random)
    }

    /// The same of a block of so many information symbols. At an idle position nothing is lost or wrong.
    pub fn sent_short(&self, code: &'static Code, w: usize, fill: usize, random: &mut Random) -> Case {
        let idle = fill..code.k;
        let mut symbols = codeword(code, w, &information(fill, w, random));
        for position in self.wrong.iter().filter(|position| !idle.contains(position)) {
            symbols[position * w + random.below(w)] ^= 1 + random.below(255) as u8;
        }
        let mut lost = vec![false; code.n];
        for &position in &self.lost {
            lost[position] = true;
        }
        lost[idle].fill(true);
        let short = if fill < code.k { format!(", fill {fill}") } else { String::new() };
        Case { label: format!("C{}, W {w}{short}, {}", code.number, self.label), code, w, fill, symbols, lost }
    }
}

pub struct Case {
    pub label: String,
    pub code: &'static Code,
    pub w: usize,
    pub fill: usize,
    /// All n: those that are sent as they are sent, idle ones zero.
    pub symbols: Vec<u8>,
    /// Of which positions no unit comes: those of lost symbols, and idle ones.
    pub lost: Vec<bool>,
}

impl Case {
    pub fn is_idle(&self, position: usize) -> bool {
        (self.fill..self.code.k).contains(&position)
    }
}

/// So many symbols. Mostly random, sometimes all zero, sometimes a single one.
pub fn information(symbols: usize, w: usize, random: &mut Random) -> Vec<u8> {
    let mut information = vec![0; symbols * w];
    match random.below(6) {
        0 => {}
        1 => {
            let x = random.below(symbols);
            random.fill(&mut information[x * w..][..w]);
        }
        _ => random.fill(&mut information),
    }
    information
}

/// The positions of which units are sent.
fn sent(code: &Code, fill: usize) -> Vec<usize> {
    (0..fill).chain(code.k..code.n).collect()
}

/// So many of these positions.
fn some(positions: &[usize], count: usize, random: &mut Random) -> Vec<usize> {
    random.shuffled(positions.len())[..count].iter().map(|&place| positions[place]).collect()
}

/// Losses of a full block that decide something.
pub fn chosen(code: &Code, random: &mut Random) -> Vec<Loss> {
    let all = &sent(code, code.k);
    let mut losses = edges(&[0, code.k - 1, code.k, code.n - 1]);
    losses.extend(counts(code, all, random));
    losses.extend(errors(code, all, random));
    losses.extend(supports(code, all, random));
    losses.extend(light_supports(code, all, random));
    losses
}

/// The same of a short block.
pub fn chosen_short(code: &Code, fill: usize, random: &mut Random) -> Vec<Loss> {
    let sent = &sent(code, fill);
    let borders = &mut vec![0, fill - 1, code.k, code.n - 1];
    borders.dedup();
    let mut losses = edges(borders);
    losses.extend(borders.iter().map(|&position| Loss::new("all heard", Vec::new()).with_wrong(vec![position])));
    losses.extend(borders.iter().map(|&position| Loss::all_but(sent, position)));
    losses.push(Loss::new("nothing heard", sent.clone()));
    losses.push(Loss::new("all information lost", (0..fill).collect()));
    losses.push(Loss::new("all parity lost", (code.k..code.n).collect()));
    // So many heard that the block can just be whole, or just not; most often more than m are lost, or as many.
    for heard in [fill.saturating_sub(1), fill, fill + 1, fill + 8, fill / 2, code.m / 2, code.m] {
        let loss = Loss::new(format!("{heard} heard"), some(sent, sent.len() - heard.min(sent.len()), random));
        losses.push(loss.with_one_wrong(sent, random));
        losses.push(loss);
    }
    for set in lightest_of(code, fill).iter().chain([&vec![0], &vec![fill - 1], &vec![random.below(fill)]]) {
        let loss = Loss::of_support(code, set);
        losses.push(loss.and(some(sent, 3, random)));
        losses.push(loss.but_for_one(random));
        losses.push(loss.with_one_wrong(sent, random));
        losses.push(loss);
    }
    losses
}

/// Fills at the borders of table rows and inside them.
pub fn chosen_fills(code: &Code) -> Vec<usize> {
    let (k, q) = (code.k, code.q);
    vec![1, 2, 3, q - 1, q, q + 1, 3 * q + q / 2, k / 2, k - q - 1, k - 1]
}

/// Any fill, often at an end or about the border of a table row.
pub fn any_fill(code: &Code, random: &mut Random) -> usize {
    match random.below(6) {
        0 => 1 + random.below(4),
        1 => code.k - random.below(4),
        2 => (1 + random.below(code.k / code.q - 1)) * code.q - 1 + random.below(3),
        _ => 1 + random.below(code.k),
    }
}

/// Border positions, alone and together.
fn edges(edges: &[usize]) -> Vec<Loss> {
    (0..1 << edges.len())
        .map(|set| {
            let lost: Vec<usize> = (0..edges.len()).filter(|bit| set >> bit & 1 == 1).map(|bit| edges[bit]).collect();
            Loss::new(format!("lost {lost:?}"), lost)
        })
        .collect()
}

/// Whole parts, and numbers about m.
fn counts(code: &Code, all: &[usize], random: &mut Random) -> Vec<Loss> {
    let mut losses = vec![
        Loss::new("all information lost", (0..code.k).collect()),
        Loss::new("all parity lost", (code.k..code.n).collect()),
        Loss::new("nothing heard", all.to_vec()),
        Loss::all_but(all, code.n - 1),
        Loss::all_but(all, 0),
        Loss::new("u_1 to u_m lost", (1..=code.m).collect()),
    ];
    for lost in [1, code.m / 2, code.m - 8, code.m - 2, code.m - 1, code.m, code.m + 1, code.m + 2, code.m + 8, code.m + code.m / 2] {
        for _ in 0..3 {
            losses.push(Loss::new(format!("{lost} lost"), some(all, lost, random)));
        }
    }
    losses
}

/// One wrong byte, with others lost.
fn errors(code: &Code, all: &[usize], random: &mut Random) -> Vec<Loss> {
    let mut losses: Vec<Loss> = [0, code.k - 1, code.k, code.n - 1]
        .into_iter()
        .map(|position| Loss::new("all heard", Vec::new()).with_wrong(vec![position]))
        .collect();
    for lost in [0, 1, code.m / 4, code.m / 2, code.m - 1, code.m, code.m + 1, code.m + 20, code.n - 2] {
        for _ in 0..2 {
            losses.push(Loss::new(format!("{lost} lost"), some(all, lost, random)).with_one_wrong(all, random));
        }
    }
    losses
}

/// The supports of codewords of one and two information symbols, some once more, a little changed. (`blocks.rs` has all of one.)
fn supports(code: &Code, all: &[usize], random: &mut Random) -> Vec<Loss> {
    let (single, double) = if code.n < 1000 { (160, 32) } else { (24, 8) };
    let mut sets: Vec<Vec<usize>> = random.shuffled(code.k).into_iter().take(single).map(|x| vec![x]).collect();
    sets.extend((0..double).map(|_| random.shuffled(code.k)[..2].to_vec()));

    let mut losses = Vec::new();
    for (index, set) in sets.iter().enumerate() {
        let loss = Loss::of_support(code, set);
        match index % 9 {
            0 => losses.push(loss.and(some(all, 5, random))),
            3 => losses.push(loss.but_for_one(random)),
            6 => losses.push(loss.with_one_wrong(all, random)),
            _ => {}
        }
        losses.push(loss);
    }
    losses
}

/// The supports of the lightest codewords found, each also with others lost, with one position heard, with an error, and with the next one's.
fn light_supports(code: &Code, all: &[usize], random: &mut Random) -> Vec<Loss> {
    let count = if code.n < 1000 { 24 } else { 10 };
    let mut losses = Vec::new();
    for pair in lightest(code)[..=count].windows(2) {
        let loss = Loss::of_support(code, &pair[0]);
        losses.push(loss.and(some(all, 5, random)));
        losses.push(loss.and(support(code, &pair[1])));
        losses.push(loss.but_for_one(random));
        losses.push(loss.with_one_wrong(all, random));
        losses.push(loss);
    }
    losses
}

/// Any loss of a full block, most often of about m symbols.
pub fn any(code: &Code, random: &mut Random) -> Loss {
    any_short(code, code.k, random)
}

/// The same of a short block.
pub fn any_short(code: &Code, fill: usize, random: &mut Random) -> Loss {
    let sent = &sent(code, fill);
    let all = sent.len();
    let lost = match random.below(12) {
        0..=5 => some(sent, all.min(code.m - 24 + random.below(48)), random),
        6 => some(sent, random.below(code.m), random),
        7 => some(sent, random.below(all + 1), random),
        8 => some(sent, all - random.below(all.min(40)), random),
        9 | 10 => {
            let length = random.below(all.min(code.m + code.m / 4));
            sent[random.below(all - length)..][..length].to_vec()
        }
        _ => {
            let set = random.shuffled(fill)[..fill.min(1 + random.below(3))].to_vec();
            let more = random.below(20);
            [support(code, &set), some(sent, more, random)].concat()
        }
    };
    let wrong = if random.chance(0.2) { some(sent, 1 + random.below(3), random) } else { Vec::new() };
    Loss::new(format!("random, {} lost", lost.len()), lost).with_wrong(wrong)
}
