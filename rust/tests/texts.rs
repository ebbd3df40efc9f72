//! What the header says in words and numbers is what the crate says.
mod compare;
mod model;
mod programs;

use compare::ours;
use lipvezor::{Code, Mark, Record, Refusal};
use std::fs;

fn text(file: &str) -> String {
    fs::read_to_string(programs::root().join(file)).unwrap()
}

fn header() -> String {
    text("include/lipvezor.h")
}

/// Prints the text of each number, one in a line.
const TEXTS: &str = r#"
#include <lipvezor.h>
#include <stdio.h>

int main(void)
{
    for (unsigned number = 0; number <= 255; number++)
        printf("%u %s\n", number, lipvezor_refusal_text(number));
    return 0;
}
"#;

#[test]
fn texts_of_refusals() {
    let printed = programs::c("texts/refusals", TEXTS);
    let lines: Vec<&str> = printed.lines().collect();
    assert_eq!(lines.len(), 256);
    let mut refusals = 0;
    for (number, line) in (0..=255u8).zip(lines) {
        let text = line.strip_prefix(&format!("{number} ")).unwrap_or_else(|| panic!("{line}"));
        match Refusal::try_from(number) {
            Ok(refusal) => {
                assert_eq!((refusal.number(), u8::from(refusal), Refusal::from_number(number)), (number, number, Some(refusal)));
                assert_eq!(refusal.to_string(), format!("refused {number}, {text}"));
                refusals += 1;
            }
            Err(unknown) => {
                assert_eq!((unknown.number(), Refusal::from_number(number)), (number, None));
                assert_eq!(text, if number == 0 { "done" } else { "not a number of this version" });
            }
        }
    }
    assert_eq!(refusals, Refusal::ALL.len());
}

const VERSIONS: &str = r#"
#include <lipvezor.h>
#include <stdio.h>

int main(void)
{
    printf("%s %zu %zu\n", LIPVEZOR_VERSION_TEXT, (size_t)LIPVEZOR_VERSION, lipvezor_version());
    return 0;
}
"#;

/// The header's, the archive's, and that of Cargo.toml.
#[test]
fn versions() {
    let version = env!("CARGO_PKG_VERSION");
    let parts: Vec<usize> = version.split('.').map(|part| part.parse().unwrap()).collect();
    let [first, second, third] = parts[..] else { panic!("{version}") };
    let number = first * 10_000 + second * 100 + third;
    assert_eq!(programs::c("texts/versions", VERSIONS), format!("{version} {number} {number}\n"));
    assert_eq!(ours::version(), number);
}

/// The first six numbers after this, on the line that begins with it: of a code k, m, n, the two numbers of its rate, and the loss in percent.
fn numbers(text: &str, begins: &str) -> Vec<usize> {
    let line = text.lines().find_map(|line| line.strip_prefix(begins)).unwrap_or_else(|| panic!("no line begins with {begins}"));
    let line = line.replace(", ", " ").replace(',', "");
    line.split(|c: char| !c.is_ascii_digit()).filter_map(|digits| digits.parse().ok()).take(6).collect()
}

/// The header, the crate's documentation and README.md say the same of each code, and the header has no other.
#[test]
fn codes_in_words() {
    let (header, documentation, readme) = (header(), text("rust/src/code.rs"), text("README.md"));
    for code in Code::ALL {
        let said = numbers(&header, &format!("#define LIPVEZOR_{code} {} ", code.number()));
        let [k, m, n, over, under, _] = said[..] else { panic!("{code}: {said:?}") };
        assert_eq!((k, m, n, k * under), (code.k(), code.m(), code.n(), n * over));
        assert_eq!(numbers(&documentation, &format!("/// | [`{code}`](Code::{code}) ")), said);
        assert_eq!(numbers(&readme, &format!("| {code} ")), said);
    }
    let is_code = |line: &str| line.strip_prefix("#define LIPVEZOR_C").is_some_and(|rest| rest.starts_with(|c: char| c.is_ascii_digit()));
    assert_eq!(header.lines().filter(|line| is_code(line)).count(), Code::ALL.len());
}

/// The members of an enum of the header, in the order in which they stand there, without the start of their names.
fn members(name: &str, start: &str) -> Vec<(String, u8)> {
    let header = header();
    let (_, rest) = header.split_once(&format!("enum {name} {{\n")).unwrap_or_else(|| panic!("the header has no enum {name}"));
    let (members, _) = rest.split_once("};").unwrap();
    let member = |line: &str| {
        let (name, number) = line.trim().split_once(" = ").unwrap_or_else(|| panic!("not a member: {line}"));
        let digits: String = number.chars().take_while(char::is_ascii_digit).collect();
        (name.strip_prefix(start).unwrap_or_else(|| panic!("another name: {line}")).to_owned(), digits.parse().unwrap())
    };
    members.lines().map(member).collect()
}

/// A name of the crate as the header writes it: ExtensionKind is EXTENSION_KIND.
fn upper(name: &str) -> String {
    let letter = |(i, c): (usize, char)| (i > 0 && c.is_uppercase()).then_some('_').into_iter().chain([c.to_ascii_uppercase()]);
    name.chars().enumerate().flat_map(letter).collect()
}

/// The numbers in the order in which they are tried.
const ORDER: [u8; 16] = [1, 2, 3, 13, 4, 5, 6, 19, 20, 7, 8, 9, 14, 10, 11, 12];

/// The same with pack's: 15 after 2, 16 after 4, and 17 after 16.
const WITH_PACK: [u8; 19] = [1, 2, 15, 3, 13, 4, 16, 17, 5, 6, 19, 20, 7, 8, 9, 14, 10, 11, 12];

/// Names and numbers of the header's refusals, in the order in which they are tried.
#[test]
fn names_and_order_of_refusals() {
    let numbers = || Refusal::ALL.iter().map(|refusal| refusal.number());
    assert!(numbers().eq(WITH_PACK));
    assert!(numbers().filter(|number| ![15, 16, 17].contains(number)).eq(ORDER));
    let due = Refusal::ALL.iter().map(|refusal| (format!("REFUSED_{}", upper(&format!("{refusal:?}"))), refusal.number()));
    assert_eq!(members("lipvezor_refusal", "LIPVEZOR_"), [("DONE".to_owned(), 0)].into_iter().chain(due).collect::<Vec<_>>());
}

/// The refusals that a list names, by the words before the colons of their texts, or all but those; what stands in brackets, or is none of them, is
/// not named.
fn named(list: &str) -> Vec<Refusal> {
    let words = list.split(['(', ')']).step_by(2).collect::<String>().replace(" and ", ", ");
    let (all_but, words) = words.strip_prefix("all but ").map_or((false, &words[..]), |others| (true, others));
    let word = |refusal: &Refusal| refusal.text().split_once(':').unwrap().0;
    let refusal = |part: &str| Refusal::ALL.iter().copied().find(|refusal| word(refusal) == part.trim());
    let named: Vec<Refusal> = words.split([',', ';', '.']).filter_map(refusal).collect();
    if all_but {
        return Refusal::ALL.iter().copied().filter(|refusal| !named.contains(refusal)).collect();
    }
    named
}

/// What each call refuses, by the header and by the crate: the same, in the order in which they are tried.
#[test]
fn refusals_of_calls() {
    let (header, calls) = (header(), text("rust/src/calls.rs"));
    for (call, due) in [
        ("pack", vec![1, 2, 15, 13, 4, 16, 17]),
        ("encode", vec![1, 2, 13, 4]),
        ("show", vec![1, 2, 13, 4, 9, 14]),
        ("write", vec![1, 2, 3, 13, 4, 9, 14, 10]),
        ("read", vec![5, 6, 19, 20]),
        ("open", vec![1, 2, 3, 13, 4]),
        ("take", ORDER.to_vec()),
        ("close", vec![1, 2, 3, 13, 4, 11]),
    ] {
        let lists = [(&header, format!(" lipvezor_{call}("), " * Refuses: "), (&calls, format!("pub fn {call}("), "/// Refusals: ")];
        for (text, declared, start) in lists {
            let before = text.split_once(&declared).unwrap_or_else(|| panic!("no {declared}")).0;
            let list = before.rsplit_once(start).unwrap().1.lines().next().unwrap();
            assert_eq!(named(list).iter().map(|refusal| refusal.number()).collect::<Vec<_>>(), due, "{call}: {list}");
            let place = |number: &u8| WITH_PACK.iter().position(|other| other == number);
            assert!(due.windows(2).all(|pair| place(&pair[0]) < place(&pair[1])), "{call}: {list}");
        }
    }
}

/// Prints the LWCs that are sent, a line for each code and fill.
const LWCS: &str = r#"
#include <lipvezor.h>
#include <stdio.h>

int main(void)
{
    for (size_t code = 0; code < 10; code++) {
        const size_t k = lipvezor_k(code), fills[] = {0, 1, 2, k - 1, k, k + 1};
        for (size_t i = 0; i < sizeof fills / sizeof *fills; i++) {
            const lipvezor_block block = {.code = code, .w = 1, .lsc = 1, .fill = fills[i]};
            printf("%zu %zu:", code, fills[i]);
            for (size_t lwc = lipvezor_next_lwc(&block, 0); lwc != 0; lwc = lipvezor_next_lwc(&block, lwc))
                printf(" %zu", lwc);
            printf("\n");
        }
    }
    return 0;
}
"#;

/// The header's LWCs that are sent are the crate's.
#[test]
fn lwcs_that_are_sent() {
    let mut printed = String::new();
    for number in 0..10 {
        let record = Record::new(Code::from_number(number), 1);
        let k = record.k();
        for fill in [0, 1, 2, k.wrapping_sub(1), k, k + 1] {
            let lwcs: String = record.with_fill(fill).lwcs().map(|lwc| format!(" {lwc}")).collect();
            printed += &format!("{number} {fill}:{lwcs}\n");
        }
    }
    assert!(programs::c("texts/lwcs", LWCS) == printed);
}

/// Names and numbers of the header's marks. A byte that is none of them is refused.
#[test]
fn names_of_marks() {
    let marks = (0..=255).filter_map(|byte| Some((upper(&format!("{:?}", Mark::try_from(byte).ok()?)), byte)));
    assert_eq!(members("lipvezor_mark", "LIPVEZOR_MARK_"), marks.collect::<Vec<_>>());
}
