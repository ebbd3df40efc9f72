// A program of somebody who depends on the crate: a block sent with 100 units lost, and recovered.
use lipvezor::{Block, Code, Codeword, Record, Refusal};

fn main() -> Result<(), Refusal> {
    let record = Record::new(Code::C1, 16).with_protocol(1).with_lsc(7);
    let information: Vec<u8> = (0..record.information_bytes()).map(|i| i as u8).collect();
    let sent = Codeword::encode(record, information.clone())?;
    let mut block = Block::open(record)?;
    for unit in sent.units()?.skip(100) {
        block.take(&unit)?;
    }
    let mut words = vec![0; record.work_words()];
    let mut bytes = vec![0; record.work_bytes()];
    let closed = block.close_with(&mut words, &mut bytes)?;
    assert_eq!(closed.information(), Some(&information[..]));
    println!("{closed}");
    Ok(())
}
