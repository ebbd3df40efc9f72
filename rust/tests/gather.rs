//! The program `gather` against the model, to the byte.
mod compare;
mod model;

use compare::cases;
use compare::drafts::{Draft, Extension};
use compare::lists::Call;
use compare::random::Random;
use compare::scripts::{self, Between};
use compare::seeded;
use model::{codes, refusals::Record, Code};
use std::io::Write;
use std::path::Path;
use std::process::{Command, Stdio};
use std::thread;

fn run(input: &[u8]) -> Vec<u8> {
    let program = Path::new(env!("CARGO_MANIFEST_DIR")).join("../target/bin/gather");
    assert!(program.exists(), "target/bin/gather is not there; `make target/bin/gather` makes it");
    let mut child = Command::new(program).stdin(Stdio::piped()).stdout(Stdio::piped()).spawn().expect("gather starts");
    let mut stdin = child.stdin.take().unwrap();
    thread::scope(|scope| {
        // The program may end before it has read all.
        scope.spawn(move || stdin.write_all(input).ok());
        child.wait_with_output().expect("gather ends").stdout
    })
}

fn compare(input: &[u8]) {
    let (printed, expected) = (String::from_utf8_lossy(&run(input)).into_owned(), model::gather::output(input));
    if printed != expected {
        let (line, parted) =
            (1..).zip(printed.lines().zip(expected.lines())).find(|(_, (a, b))| a != b).unwrap_or((0, ("another number of lines", "")));
        panic!("line {line}: {parted:?}, for {} bytes that start {:02X?}", input.len(), &input[..input.len().min(100)]);
    }
}

/// It says no fill: the program uses k.
fn header(record: Record) -> Vec<u8> {
    let mut bytes = vec![record.code as u8];
    bytes.extend((record.w as u16).to_be_bytes());
    bytes.push(record.protocol as u8);
    bytes.extend((record.lsc as u16).to_be_bytes());
    bytes
}

fn append(stream: &mut Vec<u8>, unit: &[u8]) {
    stream.extend((unit.len() as u16).to_be_bytes());
    stream.extend(unit);
}

/// The units of a random case, after a header.
fn stream(random: &mut Random) -> Vec<u8> {
    let w = 1 + random.below(16);
    let case = cases::any(&codes::C1, random).sent(&codes::C1, w, random);
    let between = if random.chance(0.5) { Between::Harmless } else { Between::Anything };
    let list = scripts::list(&case, between, random);
    let mut stream = header(list.record);
    for call in &list.calls {
        if let Call::Take(unit) = call {
            append(&mut stream, unit);
        }
    }
    stream
}

#[test]
fn sample() {
    let input = [
        0x01, 0x00, 0x02, 0x01, 0x00, 0x07, 0x00, 0x10, 0x12, 0x01, 0x00, 0x01, 0x00, 0x07, 0x01, 0x06, 0x02, 0x84, 0x00, 0x86, 0x00, 0x00,
        0xAA, 0x55, 0x00, 0x00,
    ];
    let expected = "1 kept\n2 refused 5\nambiguous heard 1\n";
    assert_eq!(String::from_utf8(run(&input)).unwrap(), expected);
    assert_eq!(model::gather::output(&input), expected);
    // Cut off at every byte.
    (0..=input.len()).for_each(|length| compare(&input[..length]));
}

#[test]
fn streams_with_losses() {
    let mut random = seeded();
    (0..150).for_each(|_| compare(&stream(&mut random)));
}

#[test]
fn damaged_and_cut_streams() {
    let mut random = seeded();
    for round in 0..150 {
        let mut stream = stream(&mut random);
        match round % 3 {
            0 => stream.truncate(random.below(stream.len())),
            1 => {
                let place = 6 + random.below(stream.len() - 5) - 1;
                stream[place] ^= 1 << random.below(8);
            }
            _ => {
                for _ in 0..1 + random.below(30) {
                    let place = random.below(stream.len());
                    stream[place] = random.next() as u8;
                }
            }
        }
        compare(&stream);
    }
}

#[test]
fn headers() {
    let good = Record { code: 1, w: 2, protocol: 1, lsc: 7, fill: 512 };
    let mut records: Vec<Record> = [0, 1, 2, 3, 4, 5, 6, 7, 8, 9, 10, 255].map(|code| Record { code, ..good }).to_vec();
    records.extend([0, 1, 15, 16, 17, 256, 258, 1023, 1024, 1025, 65535].map(|w| Record { w, ..good }));
    records.extend([0, 7, 8, 255].map(|protocol| Record { protocol, ..good }));
    records.extend([0, 1, 65534, 65535].map(|lsc| Record { lsc, ..good }));
    for record in records {
        let mut stream = header(record);
        compare(&stream);
        let w = record.w.min(16);
        let code = Code::of_number(record.code).unwrap_or(&codes::C1);
        let unit = Draft::proper(code, w, record.protocol % 8, record.lsc, code.n, &vec![9; w]).bytes();
        append(&mut stream, &unit);
        append(&mut stream, &unit);
        compare(&stream);
    }
}

/// It knows C1 alone, by its number in the header and by k and n in the units.
#[test]
fn other_codes() {
    for code in codes::ALL {
        let mut stream = header(Record { code: code.number, w: 1, protocol: 1, lsc: 7, fill: 512 });
        let expected = if code.number == 1 {
            "1 kept\n2 refused 7\n3 refused 7\n4 refused 7\n5 refused 7\n6 refused 7\nambiguous heard 1\n"
        } else {
            "bad input\n"
        };
        for other in codes::ALL {
            append(&mut stream, &Draft::proper(other, 1, 1, 7, 512, &[9]).bytes());
        }
        assert_eq!(String::from_utf8(run(&stream)).unwrap(), expected, "C{}", code.number);
        assert_eq!(model::gather::output(&stream), expected, "C{}", code.number);
    }
}

/// Units of up to 65,535 bytes.
#[test]
fn long_units() {
    let mut random = seeded();
    let record = Record { code: 1, w: 16, protocol: 3, lsc: 65534, fill: 512 };
    for length in [65535, 65534, 65533, 40000] {
        let mut stream = header(record);
        for lwc in [1, 512, 513, 768, 512] {
            let mut draft = Draft::proper(&codes::C1, record.w, record.protocol, record.lsc, lwc, &[lwc as u8; 16]);
            let rest = draft.bytes().len() + 4;
            draft.extensions.insert(random.below(2), Extension::new(77, vec![0x81; length - rest]));
            let unit = draft.bytes();
            assert_eq!(unit.len(), length);
            append(&mut stream, &unit);
            append(&mut stream, &unit[..length - 1]);
        }
        let mut noise = vec![0; length];
        random.fill(&mut noise);
        append(&mut stream, &noise);
        compare(&stream);
        compare(&stream[..stream.len() - 1]);
        compare(&stream[..stream.len() - length - 1]);
    }
}

#[test]
fn noise() {
    let mut random = seeded();
    for _ in 0..100 {
        let mut stream = vec![0; random.below(400)];
        random.fill(&mut stream);
        if random.chance(0.8) {
            let record = Record { code: 1, w: 1 + random.below(16), protocol: random.below(8), lsc: 1 + random.below(65534), fill: 512 };
            let start = header(record);
            stream.splice(..0, start);
        }
        // Small lengths, so that units come to an end.
        stream.iter_mut().skip(6).step_by(2).for_each(|byte| *byte = 0);
        compare(&stream);
    }
}
