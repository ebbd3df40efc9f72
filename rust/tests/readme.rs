//! The programs of README.md, compiled as they would be pasted, and run: each exits with 0 and prints what stands after it.
mod programs;

use std::fs;

/// A fenced block: its language, its text, and whether a heading comes between it and the block before.
#[derive(Clone, Debug, PartialEq)]
struct Fenced {
    language: String,
    text: String,
    after_heading: bool,
}

fn fenced(document: &str) -> Vec<Fenced> {
    let mut blocks = Vec::new();
    let mut open: Option<Fenced> = None;
    let mut heading = false;
    for line in document.lines() {
        match (&mut open, line.strip_prefix("```")) {
            (None, Some(language)) => {
                open = Some(Fenced { language: language.trim().to_owned(), text: String::new(), after_heading: heading })
            }
            (None, None) => heading |= line.starts_with('#'),
            (Some(_), Some(_)) => {
                blocks.extend(open.take());
                heading = false;
            }
            (Some(block), None) => {
                block.text.push_str(line);
                block.text.push('\n');
            }
        }
    }
    assert!(open.is_none(), "a fenced block that doesn't end: {open:?}");
    blocks
}

/// A program, and what the document says that it prints: the next fenced block, if that is text and under the same heading.
#[derive(Debug, PartialEq)]
struct Program {
    text: String,
    prints: Option<String>,
}

/// The programs of a language, which have a main function.
fn programs_in(document: &str, language: &str, main: &str) -> Vec<Program> {
    let blocks = fenced(document);
    let is_program = |block: &Fenced| block.language == language && block.text.contains(main);
    let said =
        |index: usize| blocks.get(index + 1).filter(|next| next.language == "text" && !next.after_heading).map(|next| next.text.clone());
    let programs = blocks.iter().enumerate().filter(|(_, block)| is_program(block));
    programs.map(|(index, block)| Program { text: block.text.clone(), prints: said(index) }).collect()
}

/// Runs the programs of a language.
fn check(language: &str, main: &str, run: fn(&str, &str) -> String) {
    let readme = fs::read_to_string(programs::root().join("README.md")).unwrap();
    let programs = programs_in(&readme, language, main);
    assert!(!programs.is_empty(), "README.md has no {language} program with a main function");
    for (index, program) in programs.iter().enumerate() {
        let printed = run(&format!("readme/{language}-{index}"), &program.text);
        if let Some(due) = &program.prints {
            assert_eq!(printed, *due, "what {language} program {index} of README.md prints");
        }
        println!(
            "{language} program {index}: prints {printed:?}, {}",
            if program.prints.is_some() { "as said" } else { "of which nothing is said" }
        );
    }
}

#[test]
fn c_programs() {
    check("c", "int main(", programs::c);
}

#[test]
fn rust_programs() {
    check("rust", "fn main(", programs::rust);
}

/// What is found in a document.
#[test]
fn programs_are_found() {
    let document =
        "# Head\n```c\nint main(void) { }\n```\nIt prints:\n\n```text\none\ntwo\n```\n```c\nno program\n```\n```rust\nfn main() {}\n```\n\
                    ## Next\n```text\nnot of it\n```\n```rust\nfn main() { }\n```\n";
    let program = |text: &str, prints: Option<&str>| Program { text: text.to_owned(), prints: prints.map(str::to_owned) };
    assert_eq!(programs_in(document, "c", "int main("), [program("int main(void) { }\n", Some("one\ntwo\n"))]);
    assert_eq!(programs_in(document, "rust", "fn main("), [program("fn main() {}\n", None), program("fn main() { }\n", None)]);
}

#[test]
#[should_panic(expected = "a fenced block that doesn't end")]
fn unfinished_block() {
    fenced("```c\nint main(void)\n");
}
