//! The erasure layer of a satellite downlink: codes C1, C2, C4, C5, C7 and C8 of CCSDS 131.5-O-1.
//!
//! On board, a [`Codeword`] adds parity symbols to the information of a block and writes each symbol as a unit. On the ground, a [`Block`]
//! takes the units that arrive, in any order, and [`Block::close`] fills every lost symbol that the received ones determine. Its answer,
//! [`Closed`], is whole, ambiguous or inconsistent, and gives out the bytes that this allows. A [`Receiver`] keeps many blocks by their numbers.
//! [`Code`] says which code is for what.
//!
//! The work is done by an archive, `liblipvezor.a`, whose source is proved: each call ends, reads and writes nothing out of range, and
//! answers what its definition says, for all inputs. This crate hands it slices and makes its numbers into types; only one private module
//! has unsafe code. [`calls`] has the archive's calls one to one; the types keep the buffers for them.
//!
//! Units are without the CRC-32 that ends an erasure coding data unit of the standard: it is added after this layer, and tested and removed
//! before it. A unit that was changed on the way and is taken all the same makes a block inconsistent, or whole and wrong.
//!
//! # There and back
//!
//! ```
//! use lipvezor::{Block, Code, Codeword, Record, Work};
//!
//! # fn main() -> Result<(), lipvezor::Refusal> {
//! let record = Record::new(Code::C1, 16).with_protocol(1).with_lsc(7);
//! let scene: Vec<u8> = (0..record.information_bytes()).map(|i| (i % 251) as u8).collect();
//!
//! // on board
//! let sent = Codeword::encode(record, &scene)?;
//!
//! // on the ground, where every fifth unit is lost
//! let mut block = Block::open(record)?;
//! for lwc in sent.lwcs().filter(|lwc| lwc % 5 != 0) {
//!     block.take(&sent.unit(lwc)?)?;
//! }
//! let closed = block.close(&mut Work::of(record))?;
//! assert_eq!(closed.to_string(), "whole: heard 615, filled 153, left 0");
//! assert_eq!(closed.information(), Some(&scene[..]));
//! # Ok(())
//! # }
//! ```
//!
//! # Too much is lost
//!
//! A symbol is filled only where all codewords that agree with the received symbols have the same one. Nothing is guessed, and a block that is
//! not whole has no [`information`](Closed::information). Of an ambiguous one, the heard and the filled symbols come one by one.
//!
//! ```
//! use lipvezor::{Block, Closed, Code, Codeword, Record, Work};
//!
//! # fn main() -> Result<(), lipvezor::Refusal> {
//! let record = Record::new(Code::C1, 1).with_protocol(1).with_lsc(7);
//! let sent = Codeword::encode(record, [0; 512])?;
//! // the first information symbol is lost, with the 79 parity symbols that change with it, and p_60, whose LWC is 513 + 60
//! let lost = |lwc: usize| lwc == 1 || [41..61, 72..98, 222..256].iter().any(|run| run.contains(&lwc.wrapping_sub(513)));
//! let mut block = Block::open(record)?;
//! for lwc in sent.lwcs().filter(|&lwc| !lost(lwc)) {
//!     block.take(&sent.unit(lwc)?)?;
//! }
//! let mut work = Work::of(record);
//! let closed = block.close(&mut work)?;
//! assert_eq!(closed.to_string(), "ambiguous: heard 687, filled 1, left 80");
//! assert_eq!(closed.information(), None);
//! if let Closed::Ambiguous(closed) = closed {
//!     let filled: Vec<usize> = closed.symbols().filter(|symbol| symbol.mark.is_filled()).map(|symbol| symbol.position).collect();
//!     assert_eq!(filled, [512 + 60]);
//!     assert_eq!(closed.missing().next(), Some(0));
//! }
//!
//! // one more unit comes
//! block.take(&sent.unit(513 + 41)?)?;
//! assert_eq!(block.close(&mut work)?.information(), Some(&[0; 512][..]));
//! # Ok(())
//! # }
//! ```
//!
//! # What does not fit is refused
//!
//! Every call may be handed any numbers, bytes and lengths. It answers a [`Refusal`] where they do not fit, and has then changed nothing.
//!
//! ```
//! use lipvezor::{Block, Code, Record, Refusal};
//!
//! let refusal = Block::open(Record::new(Code::C1, 2000)).unwrap_err();
//! assert_eq!(refusal, Refusal::Width);
//! assert_eq!(refusal.to_string(), "refused 2, width: W is 0 or above 1024");
//! ```
//!
//! # A scene in blocks
//!
//! A scene is cut into full blocks and a short last one, whose [fill](Record#a-short-block) says how many symbols it has, so that no unit is sent
//! for bytes that are not there. (Only the last symbol is filled up with zeros, if need be.) A [`Receiver`] opens each block from its first unit,
//! and keeps it by its LSC. Units do not carry the fill: here the ground knows the scene's length.
//!
//! ```
//! use lipvezor::{Code, Codeword, Receiver, Record};
//!
//! # fn main() -> Result<(), Box<dyn std::error::Error>> {
//! let scene: Vec<u8> = (0..307_200).map(|i| (i % 253) as u8).collect();
//! let full = Record::new(Code::C1, 64).with_protocol(1);
//! let symbols = scene.len().div_ceil(full.w());
//! let blocks = symbols.div_ceil(full.k());
//! let fill = |lsc: usize| full.k().min(symbols - (lsc - 1) * full.k());
//! assert_eq!((blocks, fill(1), fill(9), fill(10)), (10, 512, 512, 192));
//!
//! // on board; every fourth unit is lost
//! let mut arrived = Vec::new();
//! for (part, lsc) in scene.chunks(full.information_bytes()).zip(1..) {
//!     let sent = Codeword::encode(full.with_lsc(lsc).with_fill(fill(lsc)), part)?;
//!     for lwc in sent.lwcs().filter(|lwc| lwc % 4 != 0) {
//!         arrived.push(sent.unit(lwc)?);
//!     }
//! }
//! assert_eq!(arrived.len(), (9 * 768 + (192 + 256)) * 3 / 4);
//!
//! // on the ground; the units may come in any order
//! let mut receiver = Receiver::new(1)?.with_limit(blocks);
//! receiver.set_fill(blocks, fill(blocks))?;
//! for unit in arrived.iter().rev() {
//!     receiver.take(unit)?;
//! }
//! let mut recovered = Vec::new();
//! for lsc in 1..=blocks {
//!     let closed = receiver.close(lsc)?;
//!     recovered.extend_from_slice(closed.information().ok_or("a block is not whole")?);
//!     receiver.remove(lsc);
//! }
//! assert_eq!(recovered, scene);
//! # Ok(())
//! # }
//! ```
//!
//! # Tiles
//!
//! Tiles, data units of any length, are packed into the information of a block before it is encoded. A [`Packer`] collects tiles and tells when a
//! block is full; [`pack`] packs a list at once. Each tile begins a symbol of its own, and the first 4 bytes of a symbol say how many tile bytes it
//! has and where the tile goes on: see [rows](Packer#rows). [`Record::rows_needed`] says beforehand how many symbols tiles need, so that a block
//! has just that fill.
//!
//! ```
//! use lipvezor::{Block, Code, Codeword, Packer, Record, Work};
//!
//! # fn main() -> Result<(), lipvezor::Refusal> {
//! let tiles = [vec![1; 5000], vec![2; 12], vec![3; 700]];
//! let full = Record::new(Code::C7, 128);
//! let record = full.with_fill(full.rows_needed(&tiles.each_ref().map(Vec::len)));
//! assert_eq!(record.fill(), 41 + 1 + 6); // rows of up to 124 bytes
//!
//! // on board
//! let mut packer = Packer::new(record)?;
//! for tile in &tiles {
//!     packer.push(tile)?;
//! }
//! let sent = Codeword::encode(record, packer.pack())?;
//!
//! // on the ground, where the first twelve units are lost
//! let mut block = Block::open(record)?;
//! for unit in sent.units()?.skip(12) {
//!     block.take(&unit)?;
//! }
//! let closed = block.close(&mut Work::of(record))?;
//! let information = closed.information().expect("it is whole");
//! // row 42 has the second tile: it ends there, and has 12 bytes
//! assert_eq!(information[41 * 128..][..16], [0, 0, 0, 12, 2, 2, 2, 2, 2, 2, 2, 2, 2, 2, 2, 2]);
//! # Ok(())
//! # }
//! ```
//!
//! # Without an allocator
//!
//! The crate is `no_std`. Without its feature `alloc` (which `std`, on by default, has with it) it allocates nothing: [`calls`], [`Unit`],
//! [`Codeword::encode_in`], [`Codeword::lwcs`], [`Codeword::write_unit`], [`Block::open_in`] and [`Block::close_with`] stay, over buffers that
//! are lent to them.
#![no_std]
#![deny(unsafe_code)]
#![warn(missing_docs)]
// without alloc, what the docs link to is not all there
#![cfg_attr(not(feature = "alloc"), allow(rustdoc::broken_intra_doc_links))]

#[cfg(feature = "alloc")]
extern crate alloc;
#[cfg(feature = "std")]
extern crate std;

mod answers;
mod block;
pub mod calls;
mod closed;
mod code;
mod codeword;
mod ffi;
#[cfg(feature = "alloc")]
mod packer;
#[cfg(feature = "alloc")]
mod receiver;
mod record;
mod refusal;
mod unit;
mod version;
#[cfg(feature = "alloc")]
mod work;

#[doc(inline)]
pub use answers::{Mark, Report, Taken, Verdict};
#[doc(inline)]
pub use block::Block;
#[doc(inline)]
pub use closed::{Ambiguous, Closed, Inconsistent, Missing, Symbol, Symbols, Whole};
#[doc(inline)]
pub use code::Code;
#[cfg(feature = "alloc")]
#[doc(inline)]
pub use codeword::Units;
#[doc(inline)]
pub use codeword::{Codeword, Lwcs};
#[cfg(feature = "alloc")]
#[doc(inline)]
pub use packer::{pack, Packer};
#[cfg(feature = "alloc")]
#[doc(inline)]
pub use receiver::{ReceiveError, Received, Receiver};
#[doc(inline)]
pub use record::Record;
#[doc(inline)]
pub use refusal::{Refusal, UnknownRefusal};
#[doc(inline)]
pub use unit::{Parameters, Unit};
#[cfg(feature = "alloc")]
#[doc(inline)]
pub use work::Work;

/// The largest W: bytes of a symbol.
pub const MAX_WIDTH: usize = 1024;

/// Bytes of the longest unit, for a buffer that holds any.
pub const MAX_UNIT_BYTES: usize = 8 + 7 + MAX_WIDTH;

/// The examples of the crate's README.
#[cfg(all(doctest, feature = "std"))]
#[doc = include_str!("../README.md")]
struct Readme;
