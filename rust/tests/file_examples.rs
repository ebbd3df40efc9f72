//! The examples that send a file, in C and in Rust: the same lines, the same exit status.
mod programs;

use lipvezor::Code;
use std::fs;
use std::path::{Path, PathBuf};
use std::process::Command;
use std::sync::OnceLock;

/// The two programs.
fn examples() -> &'static [PathBuf; 2] {
    static BUILT: OnceLock<[PathBuf; 2]> = OnceLock::new();
    BUILT.get_or_init(|| {
        let text = fs::read_to_string(programs::root().join("examples/file.c")).unwrap();
        [programs::c_program("file_examples", &text), programs::example("file")]
    })
}

/// What a program answers: its exit status, and what it says on standard output and error.
#[derive(Debug, PartialEq)]
struct Answer {
    status: Option<i32>,
    printed: String,
    errors: String,
}

fn answer(program: &Path, arguments: &[&str]) -> Answer {
    let output = Command::new(program).args(arguments).output().unwrap();
    let text = |bytes: Vec<u8>| String::from_utf8(bytes).unwrap();
    Answer { status: output.status.code(), printed: text(output.stdout), errors: text(output.stderr) }
}

/// What both answer, each to its own arguments.
fn answers(c: &[&str], rust: &[&str]) -> [Answer; 2] {
    let [c_program, rust_program] = examples();
    [answer(c_program, c), answer(rust_program, rust)]
}

/// A file of one test, which both send.
fn sent(name: &str, length: usize) -> (String, Vec<u8>) {
    let bytes: Vec<u8> = (0..length).map(|i| (i * i / 7) as u8).collect();
    let path = examples()[0].with_file_name(name);
    fs::write(&path, &bytes).unwrap();
    (path.to_str().unwrap().to_owned(), bytes)
}

/// Both answer the same: an exit status, so many units sent, and a line for each of so many blocks.
fn same(c: &[&str], rust: &[&str], status: i32, units: usize, blocks: usize) {
    let [in_c, in_rust] = answers(c, rust);
    assert_eq!(in_c, in_rust);
    assert_eq!((in_c.status, in_c.errors.as_str()), (Some(status), ""));
    assert!(in_c.printed.starts_with(&format!("units: {units} sent, ")), "{}", in_c.printed);
    assert_eq!(in_c.printed.lines().filter(|line| line.starts_with("block ")).count(), blocks, "{}", in_c.printed);
}

/// Units and blocks of a file: one for each of its symbols, the last of which may be in part zeros, and m for each block.
fn cut(length: usize, code: Code, w: usize) -> (usize, usize) {
    let (symbols, blocks) = (length.div_ceil(w), length.div_ceil(code.k() * w));
    (symbols + blocks * code.m(), blocks)
}

#[test]
fn all_or_nothing_arrives() {
    let (file, _) = sent("all", 50_000);
    // 4,688 symbols and 10 times 256
    same(&["-l", "0"], &["--loss", "0"], 0, 7248, 10);
    // how many blocks there are is said by units alone
    same(&["-l", "100"], &["--loss", "1"], 1, 7248, 1);
    same(&["-l", "0", "-w", "1024", &file], &["--loss", "0", "--w", "1024", &file], 0, 49 + 256, 1);
    for &code in Code::ALL {
        let (option, number) = (format!("-{}", code.number()), code.number().to_string());
        let (units, blocks) = cut(50_000, code, 5);
        same(&[&option, "-w", "5", "-l", "0", &file], &["--code", &number, "--w", "5", "--loss", "0", &file], 0, units, blocks);
    }
}

/// Around the ends of symbols and blocks: the last block is as short as the rest of the file. Of no bytes nothing is sent.
#[test]
fn the_last_block_is_short() {
    for (length, due) in [
        (0, (0, 0)),
        (1, (1 + 256, 1)),
        (64, (1 + 256, 1)),
        (65, (2 + 256, 1)),
        (511 * 64, (511 + 256, 1)),
        (511 * 64 + 1, (768, 1)),
        (32_768, (768, 1)),
        (32_769, (768 + 1 + 256, 2)),
        (65_536, (2 * 768, 2)),
        (65_537, (2 * 768 + 1 + 256, 3)),
    ] {
        let (file, bytes) = sent("last", length);
        let outs = ["c", "rust"].map(|name| format!("{file}.{name}"));
        assert_eq!(cut(length, Code::C1, 64), due);
        same(&["-l", "0", &file, &outs[0]], &["--loss", "0", "--out", &outs[1], &file], 0, due.0, due.1);
        assert!(outs.iter().all(|out| fs::read(out).unwrap() == bytes), "{length}");
        // the last line of a block has what was heard of it
        let [in_c, _] = answers(&["-l", "0", &file], &["--loss", "0", &file]);
        let heard = format!("block {}: whole, heard {}, filled 0, left 0", due.1, due.0 - due.1.saturating_sub(1) * 768);
        assert_eq!(in_c.printed.lines().rev().nth(1) == Some(&heard), length > 0, "{}", in_c.printed);
    }
}

/// The receiver finds each code by the units, and half of what it has parity for may be lost.
#[test]
fn every_code_recovers() {
    let (file, bytes) = sent("codes", 50_000);
    let outs = ["c", "rust"].map(|name| format!("{file}.{name}"));
    for &code in Code::ALL {
        let (option, number) = (format!("-{}", code.number()), code.number().to_string());
        let percent = code.m() * 50 / code.n();
        let (in_c, in_rust) = (percent.to_string(), format!("{}", percent as f64 / 100.0));
        let c = [&option, "-w", "16", "-l", &in_c, &file, &outs[0]];
        let rust = ["--code", &number, "--w", "16", "--loss", &in_rust, "--out", &outs[1], &file];
        for (Answer { status, printed, errors }, out) in answers(&c, &rust).into_iter().zip(&outs) {
            assert_eq!((status, errors.as_str()), (Some(0), ""), "{printed}");
            assert!(printed.starts_with(&format!("units: {} sent, ", cut(50_000, code, 16).0)), "{printed}");
            assert!(fs::read(out).unwrap() == bytes, "{code}");
        }
    }
}

/// Which units are lost is each program's own.
#[test]
fn some_units_are_lost() {
    for (percent, share, due) in [("15", "0.15", Some(0)), ("34", "0.34", Some(1)), ("45", "0.45", Some(1))] {
        for Answer { status, printed, errors } in answers(&["-l", percent], &["--loss", share]) {
            let lines: Vec<&str> = printed.lines().collect();
            let [units, blocks @ .., last] = &lines[..] else { panic!("{printed}") };
            assert!(units.starts_with("units: 7248 sent, ") && units.ends_with(" kept, 0 repeated, 0 refused"), "{printed}");
            let not_whole: String =
                (1..).zip(blocks).filter(|(_, line)| !line.contains(": whole, ")).map(|(lsc, _)| format!(" {lsc}")).collect();
            assert!((1..).zip(blocks).all(|(lsc, line)| line.starts_with(&format!("block {lsc}: "))), "{printed}");
            assert_eq!((status, errors.as_str(), blocks.len()), (due, "", 10), "{printed}");
            match due {
                Some(0) => assert_eq!(*last, "recovered: 300000 bytes, as sent"),
                _ => assert_eq!(*last, format!("not recovered; not whole:{not_whole}")),
            }
            assert_eq!(not_whole.is_empty(), due == Some(0), "{printed}");
        }
    }
}

#[test]
fn a_file_is_written_if_all_is_whole() {
    // 32,768 bytes fill one block; one more begins a second. A short block stands more losses than a full one.
    for (length, blocks, with_60) in [(1, 1, Some(0)), (32_768, 1, Some(1)), (32_769, 2, Some(1))] {
        let (file, bytes) = sent("small", length);
        let outs = ["c", "rust"].map(|name| format!("{file}.{name}"));
        for (percent, share, due) in [("10", "0.1", Some(0)), ("60", "0.6", with_60), ("100", "1", Some(1))] {
            outs.iter().for_each(|out| fs::write(out, "before").unwrap());
            let both = answers(&["-l", percent, &file, &outs[0]], &["--loss", share, "--out", &outs[1], &file]);
            for (Answer { status, printed, errors }, out) in both.into_iter().zip(&outs) {
                let blocks = if percent == "100" { 1 } else { blocks };
                assert_eq!((status, printed.lines().count(), errors.as_str()), (due, 1 + blocks + 1, ""), "{printed}");
                assert!(fs::read(out).unwrap() == if due == Some(0) { &bytes[..] } else { b"before" });
            }
        }
    }
}

#[test]
fn what_else_goes_wrong() {
    let (file, _) = sent("wrong", 10);
    for (c, rust, said) in [
        (&["-l", "101"][..], &["--loss", "1.01"][..], "--loss 1.01: not a number from 0 to 1"),
        (&["-l", "-1"], &["--loss", "-1"], "--loss -1: not a number from 0 to 1"),
        (&["-l", "x"], &["--loss", "NaN"], "--loss NaN: not a number from 0 to 1"),
        (&["-l"], &["--loss"], "--loss needs a value"),
        (&["-w", "0"], &["--w", "0"], "refused 2, width: W is 0 or above 1024"),
        (&["-w", "1025"], &["--w", "1025"], "refused 2, width: W is 0 or above 1024"),
        (&["-w", "two"], &["--w", "two"], "--w two: "),
        (&["-3"], &["--code", "3"], "refused 1, code: the number is not 1, 2, 4, 5, 7 or 8"),
        (&["-0"], &["--code", "0"], "refused 1, code: "),
        (&["-9"], &["--code", "9"], "refused 1, code: "),
        (&["-x"], &["-x"], "-x is no option"),
        (&[&file, &file, &file], &[&file, &file], "one FILE only"),
        (&["/nothing/there"], &["/nothing/there"], "/nothing/there: "),
    ] {
        for Answer { status, printed, errors } in answers(c, rust) {
            assert_eq!((status, printed.as_str(), errors.lines().count()), (Some(2), "", 1), "{errors}");
            assert!(errors.starts_with("file: "), "{errors}");
        }
        let [_, in_rust] = answers(c, rust);
        assert!(in_rust.errors.contains(said), "{}", in_rust.errors);
    }
    // nowhere to write
    for Answer { status, printed, errors } in answers(&[&file, "/nothing/there"], &["--out", "/nothing/there", &file]) {
        assert_eq!((status, errors.lines().count()), (Some(2), 1), "{errors}");
        assert!(printed.starts_with("units: ") && !printed.contains("recovered"), "{printed}");
    }
}
