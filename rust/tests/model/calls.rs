//! Each call by itself, on buffers of any length and content. A refused one changes nothing.
use super::answers::{Report, Taken};
use super::refusals::{refuse_if, Record};
use super::tiles::{self, Packing};
use super::{closing, encoder, units, Fault};

/// Of the record only code, width and fill count.
pub fn pack(record: Record, tiles: &[u8], lengths: &[usize], out: &mut [u8], fault: Fault) -> Result<(), u8> {
    record.with_tiles(tiles.len(), lengths, out.len(), fault)?;
    Packing::new(record.w, tiles, lengths, fault).put(out);
    Ok(())
}

/// The rows that tiles need, up to the largest number; none for a width that pack refuses.
pub fn rows_needed(w: usize, lengths: &[usize]) -> usize {
    if !(5..=1024).contains(&w) {
        return 0;
    }
    tiles::rows(w, lengths, Fault::None).try_into().unwrap_or(usize::MAX)
}

/// Of the record only code, width and fill count.
pub fn encode(record: Record, information: &[u8], parity: &mut [u8], fault: Fault) -> Result<(), u8> {
    let code = record.code_and_width()?;
    let w = record.w;
    record.fill_and_length(code, record.is_information(information.len()) && parity.len() == code.m * w, fault)?;
    parity.copy_from_slice(&encoder::parity(code, w, information, fault));
    Ok(())
}

/// Of the record only code, width and fill count.
pub fn show(record: Record, information: &[u8], parity: &[u8], lwc: usize, out: &mut [u8], fault: Fault) -> Result<(), u8> {
    let code = record.code_and_width()?;
    let w = record.w;
    let position = code.position(lwc, fault);
    refuse_if(fault == Fault::PositionBeforeLength && position.is_none(), 9)?;
    let output = out.len() == w || fault == Fault::ShownToAnyOutput;
    record.fill_and_length(code, record.is_information(information.len()) && parity.len() == code.m * w && output, fault)?;
    let position = position.ok_or(9)?;
    refuse_if(record.is_idle(code, position, fault), 14)?;
    let symbol = match position.checked_sub(code.k) {
        None => &information[position * w..][..w],
        Some(j) => &parity[j * w..][..w],
    };
    let shown = out.len().min(w);
    out[..shown].copy_from_slice(&symbol[..shown]);
    Ok(())
}

pub fn write(record: Record, lwc: usize, symbol: &[u8], out: &mut [u8], fault: Fault) -> Result<(), u8> {
    let code = record.code_to_label()?;
    let sample = units::write(code, record.w, record.protocol, record.lsc, 1, &vec![0; record.w]);
    record.fill_and_length(code, out.len() == sample.len(), fault)?;
    record.sent_position(code, lwc, symbol.len(), fault)?;
    let mut unit = units::write(code, record.w, record.protocol, record.lsc, lwc, symbol);
    let (start, last) = (unit.len() - record.w, unit.len() - 1);
    match fault {
        Fault::SymbolFromSecondByte => unit[start..].copy_within(1.., 0),
        Fault::OddWidthCut if record.w % 2 == 1 => unit[last] = out[last],
        Fault::ValueLengthOneMore => unit[7] += 1,
        _ => {}
    }
    out.copy_from_slice(&unit);
    Ok(())
}

pub fn open(record: Record, symbols: &mut [u8], marks: &mut [u8], fault: Fault) -> Result<(), u8> {
    record.with_buffers(symbols.len(), marks.len(), fault)?;
    symbols.fill(0);
    marks.fill(0);
    Ok(())
}

pub fn take(record: Record, symbols: &mut [u8], marks: &mut [u8], unit: &[u8], fault: Fault) -> Result<Taken, u8> {
    let code = record.with_buffers(symbols.len(), marks.len(), fault)?;
    let unit = record.admit(code, unit, fault)?;
    let stored = &mut symbols[unit.position * record.w..][..record.w];
    let mark = &mut marks[unit.position];
    refuse_if(*mark > 2, 11)?;
    if *mark == 1 {
        refuse_if(*stored != unit.symbol, 12)?;
        return Ok(Taken::Repeated);
    }
    stored.copy_from_slice(&unit.symbol);
    *mark = 1;
    Ok(Taken::Kept)
}

pub fn close(
    record: Record,
    symbols: &mut [u8],
    marks: &mut [u8],
    words: &mut [u64],
    bytes: &mut [u8],
    fault: Fault,
) -> Result<Report, u8> {
    let code = record.with_work([symbols.len(), marks.len(), words.len(), bytes.len()], fault)?;
    // At idle positions, too.
    refuse_if(marks.iter().any(|&mark| mark > 2), 11)?;
    let marked: Vec<Option<&[u8]>> =
        symbols.chunks_exact(record.w).zip(marks.iter()).map(|(symbol, &mark)| (mark == 1).then_some(symbol)).collect();
    let outcome = closing::close(record, code, &marked, fault);
    symbols.copy_from_slice(&outcome.symbols);
    marks.copy_from_slice(&outcome.marks);
    words.fill(0);
    bytes.fill(0);
    Ok(outcome.report)
}
