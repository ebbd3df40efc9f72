//! Encode in plain Rust: the steps of `encoder::encode`.
use crate::plain_gather::put_sum;
use crate::plain_tables::{by_most, check_code, check_fill, check_length, Layout, Positions};
use lipvezor::{Record, Refusal};

fn encode_rows<const MOST: usize>(layout: &'static Layout, w: usize, fill: usize, information: &[u8], parity: &mut [u8]) {
    let positions = Positions::<MOST>::lay(layout, fill);
    let mut xs = [0; MOST];
    for s in 0..layout.q {
        for r in 0..layout.a {
            let j = s * layout.a + r;
            let n = positions.information(s, r, &mut xs);
            put_sum(w, j, j > 0, &xs[..n], information, parity);
        }
    }
}

#[inline(never)]
pub fn encode(record: Record, information: &[u8], parity: &mut [u8]) -> Result<(), Refusal> {
    let layout = check_code(record)?;
    check_fill(record, layout)?;
    let (w, fill) = (record.w(), record.fill());
    check_length(information.len(), fill * w)?;
    check_length(parity.len(), layout.m * w)?;
    by_most!(layout, encode_rows(layout, w, fill, information, parity));
    Ok(())
}
