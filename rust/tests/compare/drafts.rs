//! A unit in parts, so that each can be spoilt before its bytes are made.
use crate::model::units::sdnv;
use crate::model::Code;

#[derive(Clone, Debug)]
pub struct Extension {
    pub kind: u8,
    /// The bytes of the length, which need not be true.
    pub length: Vec<u8>,
    pub value: Vec<u8>,
}

impl Extension {
    pub fn new(kind: u8, value: Vec<u8>) -> Extension {
        Extension { kind, length: sdnv(value.len()), value }
    }

    pub fn coding(numbers: [usize; 4]) -> Extension {
        Extension::new(1, numbers.map(sdnv).concat())
    }

    pub fn bytes(&self) -> Vec<u8> {
        [&[self.kind], &self.length[..], &self.value].concat()
    }
}

#[derive(Clone, Debug)]
pub struct Draft {
    pub version: u8,
    pub protocol: u8,
    pub reserved: u8,
    /// Said in the header instead of the true number.
    pub count: Option<u8>,
    pub lwc: u16,
    pub lsc: u16,
    pub extensions: Vec<Extension>,
    pub symbol: Vec<u8>,
}

impl Draft {
    /// The unit that `write` makes.
    pub fn proper(code: &Code, w: usize, protocol: usize, lsc: usize, lwc: usize, symbol: &[u8]) -> Draft {
        Draft {
            version: 1,
            protocol: protocol as u8,
            reserved: 0,
            count: None,
            lwc: lwc as u16,
            lsc: lsc as u16,
            extensions: vec![Extension::coding([w, code.k, code.n, 0])],
            symbol: symbol.to_vec(),
        }
    }

    pub fn bytes(&self) -> Vec<u8> {
        let count = self.count.unwrap_or(self.extensions.len() as u8);
        let mut bytes = vec![self.version << 4 | self.protocol << 1 | self.reserved, count];
        bytes.extend(self.lwc.to_be_bytes());
        bytes.extend(self.lsc.to_be_bytes());
        for extension in &self.extensions {
            bytes.extend(extension.bytes());
        }
        bytes.extend(&self.symbol);
        bytes
    }
}

/// An SDNV with leading zero groups.
pub fn padded_sdnv(value: usize, zero_groups: usize) -> Vec<u8> {
    [vec![0x80; zero_groups], sdnv(value)].concat()
}
