//! Lists of takes and closes, with everything compared after each call.
use super::random::Random;
use super::{all_counted, ours, same, same_buffer, Difference, Stats};
use crate::model::blocks::Block;
use crate::model::refusals::Record;
use crate::model::{Code, Fault};

pub enum Call {
    Take(Vec<u8>),
    /// Work buffers of so many words and bytes, with the content that comes of a seed.
    Close {
        words: usize,
        bytes: usize,
        dirt: u64,
    },
}

pub struct List {
    pub label: String,
    pub record: Record,
    pub calls: Vec<Call>,
}

/// Opens a block and makes all calls, in the archive and in the model.
pub fn compare(list: &List, fault: Fault) -> Result<Stats, Difference> {
    Pair::open(list, fault)?.run()
}

struct Pair<'a> {
    list: &'a List,
    model: Block,
    symbols: Vec<u8>,
    marks: Vec<u8>,
    stats: Stats,
}

impl Pair<'_> {
    fn open(list: &List, fault: Fault) -> Result<Pair<'_>, Difference> {
        let code = Code::of_number(list.record.code).expect("lists are for records that open takes");
        let mut symbols = vec![0xA5; code.n * list.record.w];
        let mut marks = vec![0x5A; code.n];
        let answer = ours::open(list.record, &mut symbols, &mut marks);
        same(answer, Ok(()), || format!("{}: open", list.label))?;
        let model = Block::open(list.record, fault).expect("lists are for records that open takes");
        let pair = Pair { list, model, symbols, marks, stats: Stats { blocks: 1, calls: 1, ..Stats::default() } };
        pair.same_buffers(|| "open".to_string())?;
        Ok(pair)
    }

    fn run(mut self) -> Result<Stats, Difference> {
        for (index, call) in self.list.calls.iter().enumerate() {
            match call {
                Call::Take(unit) => self.take(index, unit)?,
                &Call::Close { words, bytes, dirt } => self.close(index, words, bytes, dirt)?,
            }
            self.stats.calls += 1;
        }
        Ok(self.stats)
    }

    fn take(&mut self, index: usize, unit: &[u8]) -> Result<(), Difference> {
        let answer = ours::take(self.list.record, &mut self.symbols, &mut self.marks, unit);
        let name = || format!("call {index}, take of {unit:02X?}");
        same(answer, self.model.take(unit), || format!("{}: {}", self.list.label, name()))?;
        self.same_buffers(name)?;
        self.stats.count_taken(answer);
        Ok(())
    }

    fn close(&mut self, index: usize, words: usize, bytes: usize, dirt: u64) -> Result<(), Difference> {
        let (mut words, mut bytes) = dirty(words, bytes, dirt);
        let (mut words_due, mut bytes_due) = (words.clone(), bytes.clone());
        let answer = ours::close(self.list.record, &mut self.symbols, &mut self.marks, &mut words, &mut bytes);
        let name = || format!("call {index}, close with {} words and {} bytes", words.len(), bytes.len());
        same(answer, self.model.close(words.len(), bytes.len()), || format!("{}: {}", self.list.label, name()))?;
        self.same_buffers(name)?;
        all_counted(self.list.record, answer, || format!("{}: {}", self.list.label, name()))?;
        if answer.is_ok() {
            words_due.fill(0);
            bytes_due.fill(0);
        }
        same_buffer(&words, &words_due, || format!("{}: work words after {}", self.list.label, name()))?;
        same_buffer(&bytes, &bytes_due, || format!("{}: work bytes after {}", self.list.label, name()))?;
        self.stats.count_closed(answer);
        Ok(())
    }

    fn same_buffers(&self, name: impl Fn() -> String) -> Result<(), Difference> {
        same_buffer(&self.marks, self.model.marks(), || format!("{}: marks after {}", self.list.label, name()))?;
        same_buffer(&self.symbols, self.model.symbols(), || format!("{}: symbols after {}", self.list.label, name()))
    }
}

/// Work buffers of random content.
pub fn dirty(words: usize, bytes: usize, dirt: u64) -> (Vec<u64>, Vec<u8>) {
    let mut random = Random::new(dirt);
    let words = (0..words).map(|_| random.next()).collect();
    let mut content = vec![0; bytes];
    random.fill(&mut content);
    (words, content)
}
