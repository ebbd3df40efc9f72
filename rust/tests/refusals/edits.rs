//! Inputs are described, altered by one or two edits, then built and handed to the archive and the model.
use crate::model::refusals::Record;
use crate::model::{codes, Code};

/// The refusals in the order in which they are tried. Those of one place are told apart by the unit's bytes.
pub const ORDER: [&[u8]; 14] = [&[1], &[2], &[3], &[13], &[4], &[5], &[6, 19, 20], &[7], &[8], &[9], &[14], &[10], &[11], &[12]];

/// The same with pack's.
pub const WITH_PACK: [&[u8]; 17] =
    [&[1], &[2], &[15], &[3], &[13], &[4], &[16], &[17], &[5], &[6, 19, 20], &[7], &[8], &[9], &[14], &[10], &[11], &[12]];

/// The place of a number in the order; that of 0, allowed, comes last.
fn place(number: u8) -> usize {
    WITH_PACK.iter().position(|numbers| numbers.contains(&number)).unwrap_or(WITH_PACK.len())
}

/// One change of an input, and the number that it alone is refused with; 0 if it is allowed.
pub struct Edit<T> {
    number: u8,
    label: &'static str,
    apply: fn(&mut T),
}

pub fn edit<T>(number: u8, label: &'static str, apply: fn(&mut T)) -> Edit<T> {
    Edit { number, label, apply }
}

/// For a call that refuses none of these.
pub fn allowed<T>(mut edits: Vec<Edit<T>>) -> Vec<Edit<T>> {
    edits.iter_mut().for_each(|edit| edit.number = 0);
    edits
}

/// Checks each edit alone, and all pairs in both orders, so every edit with every code. `check` compares archive and model and returns the
/// number, 0 for none. Of two edits the number whose place comes first is due, or any of both if they share it; where one undoes the other, in
/// at least one order.
pub fn check_all<T: Clone>(plain: &T, edits: &[Edit<T>], check: impl Fn(&T, &str) -> u8) {
    let run = |chosen: &[&Edit<T>]| {
        let mut input = plain.clone();
        chosen.iter().for_each(|edit| (edit.apply)(&mut input));
        let label: Vec<&str> = chosen.iter().map(|edit| edit.label).collect();
        check(&input, &label.join(", "))
    };
    assert_eq!(run(&[]), 0, "the plain input");
    for edit in edits {
        assert_eq!(run(&[edit]), edit.number, "{}", edit.label);
    }
    let mut pairs = 0;
    for (i, a) in edits.iter().enumerate() {
        for b in &edits[i + 1..] {
            let first = place(a.number).min(place(b.number));
            let due = |answer: u8| [a.number, b.number].contains(&answer) && place(answer) == first;
            let answers = [run(&[a, b]), run(&[b, a])];
            assert!(answers.into_iter().any(due), "{} ({}) and {} ({}): {answers:?}", a.label, a.number, b.label, b.number);
            pairs += 1;
        }
    }
    println!("compared {} edits and {pairs} pairs of them, in both orders", edits.len());
}

/// A block's numbers, of which the fill follows from the code's k.
#[derive(Clone, Copy)]
pub struct Numbers {
    pub code: usize,
    pub w: usize,
    pub protocol: usize,
    pub lsc: usize,
    pub fill: fn(usize) -> usize,
}

/// What buffers are built for.
#[derive(Clone, Copy)]
pub struct Shape {
    pub code: &'static Code,
    pub w: usize,
    pub fill: usize,
}

impl Numbers {
    pub const PLAIN: Numbers = Numbers { code: 1, w: 3, protocol: 5, lsc: 1000, fill: |k| k / 2 + 3 };

    fn code(&self) -> &'static Code {
        Code::of_number(self.code).unwrap_or(&codes::C1)
    }

    pub fn record(&self) -> Record {
        let Numbers { code, w, protocol, lsc, fill } = *self;
        Record { code, w, protocol, lsc, fill: fill(self.code().k) }
    }

    /// Each number that is refused is replaced: the code by C1, W by 3, the fill by k.
    pub fn shape(&self) -> Shape {
        let (code, fill) = (self.code(), self.record().fill);
        let w = if (1..=1024).contains(&self.w) { self.w } else { 3 };
        Shape { code, w, fill: if (1..=code.k).contains(&fill) { fill } else { code.k } }
    }
}

/// An input that holds a record; for pack, encode and show only its code, width and fill count.
pub trait HasNumbers {
    fn numbers(&mut self) -> &mut Numbers;
}

/// An input that holds an LWC.
pub trait HasLwc: HasNumbers {
    fn lwc(&mut self) -> &mut Lwc;
}

/// Of the shape's code and fill.
pub type Lwc = fn(&Shape) -> usize;

/// 1 and 2, for a call that takes narrow symbols.
pub fn code_edits<T: HasNumbers>() -> Vec<Edit<T>> {
    let mut edits = code_and_width_edits();
    edits.extend(allowed(narrow_edits()));
    edits
}

/// 1 and 2.
pub fn code_and_width_edits<T: HasNumbers>() -> Vec<Edit<T>> {
    vec![
        edit(0, "code 2", |i| i.numbers().code = 2),
        edit(0, "code 4", |i| i.numbers().code = 4),
        edit(0, "code 5", |i| i.numbers().code = 5),
        edit(0, "code 7", |i| i.numbers().code = 7),
        edit(0, "code 8", |i| i.numbers().code = 8),
        edit(1, "code 0", |i| i.numbers().code = 0),
        edit(1, "code 3", |i| i.numbers().code = 3),
        edit(1, "code 6", |i| i.numbers().code = 6),
        edit(1, "code 9", |i| i.numbers().code = 9),
        edit(1, "code 10", |i| i.numbers().code = 10),
        edit(1, "code 257", |i| i.numbers().code = 257),
        edit(1, "code 2^32 + 1", |i| i.numbers().code = (1 << 32) + 1),
        edit(1, "the largest code", |i| i.numbers().code = usize::MAX),
        edit(0, "W 5", |i| i.numbers().w = 5),
        edit(0, "W 1024", |i| i.numbers().w = 1024),
        edit(2, "W 0", |i| i.numbers().w = 0),
        edit(2, "W 1025", |i| i.numbers().w = 1025),
        edit(2, "W 2^32 + 3", |i| i.numbers().w = (1 << 32) + 3),
        edit(2, "the largest W", |i| i.numbers().w = usize::MAX),
    ]
}

/// 15.
pub fn narrow_edits<T: HasNumbers>() -> Vec<Edit<T>> {
    vec![edit(15, "W 1", |i| i.numbers().w = 1), edit(15, "W 4", |i| i.numbers().w = 4)]
}

/// 3.
pub fn label_edits<T: HasNumbers>() -> Vec<Edit<T>> {
    vec![
        edit(0, "protocol 0", |i| i.numbers().protocol = 0),
        edit(0, "protocol 7", |i| i.numbers().protocol = 7),
        edit(3, "protocol 8", |i| i.numbers().protocol = 8),
        edit(3, "protocol 256", |i| i.numbers().protocol = 256),
        edit(3, "the largest protocol", |i| i.numbers().protocol = usize::MAX),
        edit(0, "LSC 1", |i| i.numbers().lsc = 1),
        edit(0, "LSC 65534", |i| i.numbers().lsc = 65534),
        edit(3, "LSC 0", |i| i.numbers().lsc = 0),
        edit(3, "LSC 65535", |i| i.numbers().lsc = 65535),
        edit(3, "LSC 65536", |i| i.numbers().lsc = 65536),
        edit(3, "LSC 65537", |i| i.numbers().lsc = 65537),
        edit(3, "the largest LSC", |i| i.numbers().lsc = usize::MAX),
    ]
}

/// 13.
pub fn fill_edits<T: HasNumbers>() -> Vec<Edit<T>> {
    vec![
        edit(0, "fill 1", |i| i.numbers().fill = |_| 1),
        edit(0, "fill 2", |i| i.numbers().fill = |_| 2),
        edit(0, "fill k - 1", |i| i.numbers().fill = |k| k - 1),
        edit(0, "fill k", |i| i.numbers().fill = |k| k),
        edit(13, "fill 0", |i| i.numbers().fill = |_| 0),
        edit(13, "fill k + 1", |i| i.numbers().fill = |k| k + 1),
        edit(13, "fill 65536 + 1", |i| i.numbers().fill = |_| 65537),
        edit(13, "fill 2^32 + 1", |i| i.numbers().fill = |_| (1 << 32) + 1),
        edit(13, "the largest fill", |i| i.numbers().fill = |_| usize::MAX),
    ]
}

/// 9, for LWCs that fit into a unit.
pub fn position_edits<T: HasLwc>() -> Vec<Edit<T>> {
    vec![
        edit(0, "LWC 1", |i| *i.lwc() = |_| 1),
        edit(0, "LWC fill", |i| *i.lwc() = |s| s.fill),
        edit(0, "LWC k + 1", |i| *i.lwc() = |s| s.code.k + 1),
        edit(0, "LWC n", |i| *i.lwc() = |s| s.code.n),
        edit(9, "LWC 0", |i| *i.lwc() = |_| 0),
        edit(9, "LWC n + 1", |i| *i.lwc() = |s| s.code.n + 1),
        edit(9, "LWC 65535", |i| *i.lwc() = |_| 65535),
    ]
}

/// 14. Each has a fill of its own, since a full block has no idle position.
pub fn idle_edits<T: HasLwc>() -> Vec<Edit<T>> {
    fn set<T: HasLwc>(input: &mut T, fill: fn(usize) -> usize, lwc: Lwc) {
        input.numbers().fill = fill;
        *input.lwc() = lwc;
    }
    vec![
        edit(14, "fill 1, LWC 2", |i| set(i, |_| 1, |_| 2)),
        edit(14, "fill 1, LWC k", |i| set(i, |_| 1, |s| s.code.k)),
        edit(14, "fill k / 2, LWC k / 2 + 1", |i| set(i, |k| k / 2, |s| s.code.k / 2 + 1)),
        edit(14, "fill k - 1, LWC k", |i| set(i, |k| k - 1, |s| s.code.k)),
        edit(0, "fill k / 2, LWC k / 2", |i| set(i, |k| k / 2, |s| s.code.k / 2)),
        edit(0, "fill k / 2, LWC k + 1", |i| set(i, |k| k / 2, |s| s.code.k + 1)),
        edit(0, "fill k - 1, LWC k - 1", |i| set(i, |k| k - 1, |s| s.code.k - 1)),
        edit(0, "fill k, LWC k", |i| set(i, |k| k, |s| s.code.k)),
        edit(0, "fill k, LWC k + 1", |i| set(i, |k| k, |s| s.code.k + 1)),
    ]
}

/// How a buffer's length differs from its size.
#[derive(Clone, Copy, Default)]
pub enum Off {
    #[default]
    Exact,
    By(isize),
    Empty,
    Twice,
}

/// A buffer with a pattern, of about so many elements.
pub fn pattern<T: From<u8>>(size: usize, off: Off) -> Vec<T> {
    let length = match off {
        Off::Exact => size,
        Off::By(more) => size.saturating_add_signed(more),
        Off::Empty => 0,
        Off::Twice => 2 * size,
    };
    (0..length).map(|i| T::from((i * 7 + 1) as u8)).collect()
}

/// 4, for one buffer of an input.
macro_rules! length_edits {
    ($field:ident) => {
        [
            edit(4, concat!(stringify!($field), " one short"), |i: &mut Input| i.$field = Off::By(-1)),
            edit(4, concat!(stringify!($field), " one long"), |i: &mut Input| i.$field = Off::By(1)),
            edit(4, concat!(stringify!($field), " empty"), |i: &mut Input| i.$field = Off::Empty),
            edit(4, concat!(stringify!($field), " twice as long"), |i: &mut Input| i.$field = Off::Twice),
        ]
    };
}
pub(crate) use length_edits;
