//! Every name that the documents cite stands in the repository, every must-fail edit is named in one of them, and their links lead somewhere.
//! docs/SPEC-MAP.md says how names are written.
use std::collections::{BTreeMap, BTreeSet};
use std::fs;
use std::path::{Path, PathBuf};

const MAP: &str = "docs/SPEC-MAP.md";
const DOCUMENTS: [&str; 7] = [MAP, "README.md", "docs/PROOFS.md", "DEVELOPING.md", "docs/DECISIONS.md", "docs/PICS.md", "docs/gather.md"];
/// Those that name the edits.
const EDITS_IN: [&str; 3] = [MAP, "README.md", "docs/PROOFS.md"];

fn root() -> PathBuf {
    Path::new(env!("CARGO_MANIFEST_DIR")).join("..")
}

fn text(path: &Path) -> Option<String> {
    fs::read_to_string(path).ok()
}

fn folder(path: &Path) -> Vec<PathBuf> {
    let mut paths: Vec<PathBuf> = fs::read_dir(path).into_iter().flatten().map(|entry| entry.unwrap().path()).collect();
    paths.sort();
    paths
}

fn stem(path: &Path) -> String {
    path.file_stem().unwrap().to_string_lossy().into_owned()
}

fn is_word(name: &str) -> bool {
    !name.is_empty() && name.chars().all(|c| c.is_ascii_alphanumeric() || c == '_')
}

// ---- documents

/// A line of a document, and its number.
struct Line<'a> {
    number: usize,
    text: &'a str,
    /// In a block of code, indented by four or between fences.
    code: bool,
}

fn lines(document: &str) -> Vec<Line<'_>> {
    let mut fenced = false;
    let mut lines = Vec::new();
    for (index, text) in document.lines().enumerate() {
        let fence = text.trim_start().starts_with("```");
        lines.push(Line { number: index + 1, text, code: fenced || fence || text.starts_with("    ") });
        fenced ^= fence;
    }
    assert!(!fenced, "a fenced block that doesn't end");
    lines
}

// ---- code spans

/// What the words before a code span, or its column, ask it to be.
#[derive(Clone, Copy, Debug, PartialEq)]
enum Asked {
    Anything,
    CodeEdit,
    DefinitionEdit,
    Test,
    Program,
}

/// A code span, and its line.
struct Span<'a> {
    line: usize,
    text: &'a str,
    asked: Asked,
}

fn asked(before: &str, last: Asked) -> Asked {
    let before = before.trim();
    let ends = |words: &[&str]| words.iter().any(|word| before == *word || before.ends_with(&format!(" {word}")));
    if ["", ",", "and", ", and"].contains(&before) {
        last
    } else if ends(&["of a definition"]) {
        Asked::DefinitionEdit
    } else if ends(&["edit", "edits"]) {
        Asked::CodeEdit
    } else if ends(&["test", "tests"]) {
        Asked::Test
    } else if ends(&["program", "programs"]) {
        Asked::Program
    } else {
        Asked::Anything
    }
}

/// What a column of edits asks, by its heading.
fn asked_by_column(heading: &str) -> Option<Asked> {
    match heading.trim() {
        "wrong code" => Some(Asked::CodeEdit),
        "wrong definition" => Some(Asked::DefinitionEdit),
        _ => None,
    }
}

/// The code spans of a document, outside blocks of code.
fn spans(document: &str) -> Vec<Span<'_>> {
    let mut spans = Vec::new();
    let mut headings: Vec<&str> = Vec::new();
    for Line { number, text: line, .. } in lines(document).into_iter().filter(|line| !line.code) {
        let cells: Vec<&str> = if line.starts_with('|') { line.trim_matches('|').split('|').collect() } else { vec![line] };
        if !line.starts_with('|') {
            headings.clear();
        } else if headings.is_empty() {
            headings.clone_from(&cells);
        }
        for (column, cell) in cells.into_iter().enumerate() {
            let by_column = headings.get(column).and_then(|heading| asked_by_column(heading));
            let parts: Vec<&str> = cell.split('`').collect();
            assert!(parts.len() % 2 == 1, "line {number}: a code span that doesn't end: {cell}");
            let mut last = Asked::Anything;
            for pair in parts.chunks_exact(2) {
                last = by_column.filter(|_| pair[1].contains('/')).unwrap_or(asked(pair[0], last));
                spans.push(Span { line: number, text: pair[1], asked: last });
            }
        }
    }
    spans
}

// ---- what stands in the repository

#[derive(Clone, Copy, Debug, PartialEq, Eq, PartialOrd, Ord)]
enum Kind {
    Definition,
    Item,
    Test,
    Edit,
    File,
    Program,
    /// Not a name that is looked up.
    Words,
}

/// The declarations of a file of definitions, each with the record or data type that has it.
fn declarations(text: &str) -> Vec<(Option<String>, String)> {
    let mut found = Vec::new();
    let mut owner: Option<(usize, String)> = None;
    for line in text.lines() {
        let rest = line.trim_start();
        if rest.is_empty() || rest.starts_with("--") {
            continue;
        }
        let indent = line.len() - rest.len();
        if owner.as_ref().is_some_and(|(outer, _)| indent <= *outer) {
            owner = None;
        }
        let has = owner.as_ref().map(|(_, name)| name.clone());
        let rest = ["unfoldable ", "abbrev "].iter().find_map(|word| rest.strip_prefix(word)).unwrap_or(rest);
        let declared = rest.strip_prefix("pub ");
        if let Some(named) = declared.and_then(|rest| rest.strip_prefix("record ").or(rest.strip_prefix("data "))) {
            let name = named.split_whitespace().next().unwrap().to_owned();
            found.push((has, name.clone()));
            owner = Some((indent, name));
        } else if let Some((names, _)) = declared.or(has.is_some().then_some(rest)).and_then(|rest| rest.split_once(" : ")) {
            found.extend(names.split_whitespace().map(|name| (has.clone(), name.to_owned())));
        }
    }
    found
}

/// crate/Module.name, crate/inner.Module.name, either with a field or a case after it.
fn is_definition(crate_name: &str, rest: &str) -> bool {
    let parts: Vec<&str> = rest.split('.').collect();
    let (place, parts) = if parts[0] == "inner" { ("specs/inner", &parts[1..]) } else { ("specs", &parts[..]) };
    let Some((module, names)) = parts.split_first() else { return false };
    let file = root().join("crates").join(crate_name).join(place).join(format!("{module}.antt"));
    let declared = text(&file).map(|text| declarations(&text)).unwrap_or_default();
    match names {
        [name] => declared.iter().any(|(_, declared)| declared == name),
        [owner, name] => declared.iter().any(|(has, declared)| has.as_deref() == Some(*owner) && declared == name),
        _ => false,
    }
}

/// Whether a file of code declares an item: a function, a type or a constant; inside a type also a field or a case.
fn declares(text: &str, name: &str, inside: bool) -> bool {
    let begins =
        |line: &str, name: &str| line.strip_prefix(name).is_some_and(|rest| !rest.starts_with(|c: char| c.is_alphanumeric() || c == '_'));
    text.lines().map(str::trim_start).any(|line| {
        let line = line.strip_prefix("pub ").unwrap_or(line);
        let line = line.strip_prefix("extern \"C\" ").unwrap_or(line);
        let words = ["fn ", "const fn ", "struct ", "enum ", "trait ", "const ", "static ", "type ", "impl "];
        let item = words.iter().find_map(|word| line.strip_prefix(word));
        item.is_some_and(|item| begins(item, name)) || inside && begins(line, name)
    })
}

fn declares_all(text: &str, names: &[&str]) -> bool {
    names.iter().enumerate().all(|(index, name)| declares(text, name, index > 0))
}

/// crate::module::item, or crate::item for what stands in the crate's first file.
fn is_item(names: &[&str]) -> bool {
    let source = root().join("crates").join(names[0]).join("src");
    if let Some(text) = text(&source.join(format!("{}.rt", names[1]))) {
        return declares_all(&text, &names[2..]);
    }
    ["lib.rt", "main.rt"].iter().filter_map(|file| text(&source.join(file))).any(|text| declares_all(&text, &names[1..]))
}

/// The same in the Rust crate, whose name may be left out.
fn is_rust_item(names: &[&str]) -> bool {
    let source = root().join("rust/src");
    let names = names.strip_prefix(&["lipvezor"]).unwrap_or(names);
    if let Some(text) = text(&source.join(format!("{}.rs", names[0]))) {
        return declares_all(&text, &names[1..]);
    }
    folder(&source).iter().filter_map(|file| text(file)).any(|text| declares_all(&text, names))
}

/// The files of a test: file.rs, or those of the folder.
fn test_files(name: &str) -> Vec<PathBuf> {
    let file = root().join("rust/tests").join(format!("{name}.rs"));
    if file.exists() {
        return vec![file];
    }
    folder(&root().join("rust/tests").join(name))
}

fn is_in_tests(names: &[&str]) -> bool {
    test_files(names[0]).iter().filter_map(|file| text(file)).any(|text| declares_all(&text, &names[1..]))
}

/// Whether a function of a test is run as one.
fn is_test(names: &[&str]) -> bool {
    let [file, name] = names else { return false };
    test_files(file).iter().filter_map(|file| text(file)).any(|text| {
        let lines: Vec<&str> = text.lines().collect();
        let at = lines.iter().position(|line| line.starts_with(&format!("fn {name}(")));
        let above = at.map(|at| lines[..at].iter().rev().take_while(|line| line.starts_with("#[")));
        above.is_some_and(|mut above| above.any(|line| *line == "#[test]"))
    })
}

fn edit_file(name: &str) -> PathBuf {
    let (crate_name, name) = name.split_once('/').unwrap();
    root().join("crates").join(crate_name).join("must-fail").join(format!("{name}.edit"))
}

/// Whether an edit changes code; else it changes definitions alone.
fn changes_code(name: &str) -> bool {
    text(&edit_file(name)).unwrap().lines().any(|line| line.starts_with("file: src/"))
}

/// The edits, as crate/name.
fn edits() -> BTreeSet<String> {
    let of_crate =
        |path: &PathBuf| folder(&path.join("must-fail")).iter().map(|edit| format!("{}/{}", stem(path), stem(edit))).collect::<Vec<_>>();
    folder(&root().join("crates")).iter().flat_map(of_crate).collect()
}

fn is_crate(name: &str) -> bool {
    is_word(name) && root().join("crates").join(name).is_dir()
}

/// Where a folder's name with a slash after it stands: at the root, or in a crate.
fn is_folder(name: &str) -> bool {
    root().join(name).is_dir() || folder(&root().join("crates")).iter().any(|path| path.join(name).is_dir())
}

/// What a code span names; an error if it has the form of a name and names nothing.
fn named(span: &str) -> Result<Kind, &'static str> {
    let found = |kind, is: bool, why| if is { Ok(kind) } else { Err(why) };
    let elsewhere = ["target/", "/", "$", "std::", "core::", "alloc::"].iter().any(|start| span.starts_with(start));
    if elsewhere || span.contains(|c: char| c.is_whitespace() || "=…(".contains(c)) {
        return Ok(Kind::Words);
    }
    if span.contains("::") {
        let names: Vec<&str> = span.split("::").collect();
        if names.iter().all(|name| is_word(name)) && (is_item(&names) || is_rust_item(&names)) {
            return Ok(Kind::Item);
        }
        return found(Kind::Test, is_in_tests(&names), "no such function, type, constant or test");
    }
    match span.split_once('/') {
        None => Ok(Kind::Words),
        Some(_) if span.ends_with('/') => found(Kind::File, is_folder(span), "no such folder"),
        Some((crate_name, rest)) if is_crate(crate_name) && rest.contains('.') => {
            found(Kind::Definition, is_definition(crate_name, rest), "no such definition")
        }
        Some((crate_name, _)) if is_crate(crate_name) => found(Kind::Edit, edit_file(span).exists(), "no such edit"),
        Some(_) => found(Kind::File, root().join(span).exists(), "no such file"),
    }
}

/// The same, where it must also be what is asked.
fn checked(span: &Span) -> Result<Kind, &'static str> {
    let kind = named(span.text)?;
    match span.asked {
        Asked::Anything => Ok(kind),
        Asked::CodeEdit | Asked::DefinitionEdit if kind != Kind::Edit => Err("not an edit"),
        Asked::CodeEdit if !changes_code(span.text) => Err("an edit of a definition, and not said to be one"),
        Asked::DefinitionEdit if changes_code(span.text) => Err("an edit of code, and said to be one of a definition"),
        Asked::CodeEdit | Asked::DefinitionEdit => Ok(kind),
        Asked::Test if is_test(&span.text.split("::").collect::<Vec<_>>()) => Ok(Kind::Test),
        Asked::Test => Err("not a test"),
        Asked::Program if is_crate(span.text) && root().join("crates").join(span.text).join("src/main.rt").exists() => Ok(Kind::Program),
        Asked::Program => Err("not a program"),
    }
}

fn document(name: &str) -> String {
    text(&root().join(name)).unwrap_or_else(|| panic!("{name} is not there"))
}

#[test]
fn names_stand_in_the_repository() {
    let mut wrong = Vec::new();
    for name in DOCUMENTS {
        let document = document(name);
        let mut counts: BTreeMap<Kind, usize> = BTreeMap::new();
        for span in spans(&document) {
            match checked(&span) {
                Ok(kind) => *counts.entry(kind).or_default() += 1,
                Err(why) => wrong.push(format!("{name}:{}: `{}`: {why}", span.line, span.text)),
            }
        }
        println!("{name}: {counts:?}");
        if name == MAP {
            for (kind, least) in [(Kind::Definition, 150), (Kind::Item, 100), (Kind::Test, 80), (Kind::Edit, 80)] {
                let count = counts.get(&kind).copied().unwrap_or(0);
                assert!(count >= least, "{name}: only {count} of {kind:?} were found");
            }
        }
    }
    assert!(wrong.is_empty(), "names that the documents cite and the repository doesn't have:\n{}", wrong.join("\n"));
}

#[test]
fn edits_are_named() {
    let documents = EDITS_IN.map(document);
    let cited: BTreeSet<&str> = documents.iter().flat_map(|document| spans(document)).map(|span| span.text).collect();
    let edits = edits();
    assert!(edits.len() >= 40, "only {} edits were found", edits.len());
    let unnamed: Vec<&String> = edits.iter().filter(|edit| !cited.contains(edit.as_str())).collect();
    assert!(unnamed.is_empty(), "edits that none of {EDITS_IN:?} names: {unnamed:?}");
    println!("{} edits are named", edits.len());
}

/// One document has the table of crates, with each crate and no other.
#[test]
fn crates_are_described() {
    const HEADING: &str = "| crate | what it has | builds on |";
    let documents = DOCUMENTS.map(document);
    let tables: Vec<&String> = documents.iter().filter(|document| document.lines().any(|line| line == HEADING)).collect();
    let [table] = tables[..] else { panic!("{} of {DOCUMENTS:?} have the table of crates", tables.len()) };
    let rows = table.lines().skip_while(|line| *line != HEADING).skip(2).take_while(|line| line.starts_with('|'));
    let described: BTreeSet<String> =
        rows.flat_map(|row| row.split('|').nth(1).unwrap().split('`').skip(1).step_by(2)).map(str::to_owned).collect();
    let crates: BTreeSet<String> = folder(&root().join("crates")).iter().map(|path| stem(path)).collect();
    assert_eq!(described, crates);
}

/// The lines of the documents' blocks of code that are definitions stand so in specs.
#[test]
fn quoted_definitions_stand_in_specs() {
    let specs: Vec<PathBuf> = folder(&root().join("crates")).iter().flat_map(|path| folder(&path.join("specs"))).collect();
    let lines: BTreeSet<String> = specs
        .iter()
        .filter_map(|file| text(file))
        .flat_map(|text| text.lines().map(|line| line.trim().to_owned()).collect::<Vec<_>>())
        .collect();
    let documents = DOCUMENTS.map(document);
    let quoted: Vec<&str> = documents
        .iter()
        .flat_map(|document| self::lines(document))
        .filter(|line| line.code && line.text.contains(['≡', '→']))
        .map(|line| line.text.trim())
        .collect();
    assert!(quoted.len() >= 5, "only {} lines were found", quoted.len());
    let wrong: Vec<&&str> = quoted.iter().filter(|line| !lines.contains(**line)).collect();
    assert!(wrong.is_empty(), "the documents quote lines that are not in specs: {wrong:#?}");
}

// ---- links

/// The documents whose links are followed: those at the top, in docs/ and in rust/.
fn linking() -> Vec<PathBuf> {
    let files = ["", "docs", "rust"].iter().flat_map(|name| folder(&root().join(name)));
    files.filter(|file| file.extension().is_some_and(|extension| extension == "md")).collect()
}

/// The targets of a document's links and pictures, outside blocks of code and code spans.
fn links(document: &str) -> Vec<(usize, String)> {
    let mut links = Vec::new();
    for Line { number, text, .. } in lines(document).into_iter().filter(|line| !line.code) {
        let prose: String = text.split('`').step_by(2).collect::<Vec<_>>().join("``");
        for (start, end) in [("](", ')'), ("src=\"", '"'), ("href=\"", '"')] {
            let targets = prose.split(start).skip(1).map(|rest| rest.split(end).next().unwrap().to_owned());
            links.extend(targets.map(|target| (number, target)));
        }
    }
    links
}

/// The anchors of a document's headings.
fn anchors(document: &str) -> BTreeSet<String> {
    let headings = lines(document).into_iter().filter(|line| !line.code).filter_map(|line| line.text.strip_prefix('#'));
    let kept = |c: &char| c.is_alphanumeric() || " -_".contains(*c);
    headings
        .map(|text| text.trim_start_matches('#').trim().to_lowercase().chars().filter(kept).collect::<String>().replace(' ', "-"))
        .collect()
}

/// Why a link of a document in a folder leads nowhere, if it does; links to other hosts are not followed.
fn broken(folder: &Path, own: &str, target: &str) -> Option<&'static str> {
    if target.starts_with("https://") || target.starts_with("http://") {
        return None;
    }
    let (path, anchor) = target.split_once('#').unwrap_or((target, ""));
    let file = folder.join(path);
    if !file.exists() {
        return Some("no such file");
    }
    let there = if path.is_empty() { own.to_owned() } else { text(&file).unwrap_or_default() };
    (!anchor.is_empty() && !anchors(&there).contains(anchor)).then_some("no such heading")
}

#[test]
fn links_lead_somewhere() {
    let mut wrong = Vec::new();
    let mut followed = 0;
    for file in linking() {
        let own = text(&file).unwrap();
        for (line, target) in links(&own) {
            followed += 1;
            wrong.extend(broken(file.parent().unwrap(), &own, &target).map(|why| format!("{}:{line}: {target}: {why}", file.display())));
        }
    }
    println!("{followed} links lead somewhere");
    assert!(wrong.is_empty(), "links that lead nowhere:\n{}", wrong.join("\n"));
    // What a reader of the README goes on to.
    let readme = document("README.md");
    let targets: BTreeSet<String> = links(&readme).into_iter().map(|(_, target)| target.split('#').next().unwrap().to_owned()).collect();
    for next in ["docs/PROOFS.md", "DEVELOPING.md"] {
        assert!(targets.contains(next), "README.md has no link to {next}: {targets:?}");
    }
}

#[test]
fn broken_links_are_found() {
    let own = "# A heading, `code`\n[a](docs/NOTHING.md) and ![b](docs/nothing.svg)\n```text\n[c](d)\n```\n<img src=\"e.svg\"> `[f](g)`\n";
    let found: Vec<(usize, String)> = links(own);
    assert_eq!(found, [(2, "docs/NOTHING.md".to_owned()), (2, "docs/nothing.svg".to_owned()), (6, "e.svg".to_owned())]);
    for (target, why) in [
        ("docs/NOTHING.md", Some("no such file")),
        ("docs/SPEC-MAP.md", None),
        ("docs/SPEC-MAP.md#nothing", Some("no such heading")),
        ("#a-heading-code", None),
        ("#another", Some("no such heading")),
        ("https://example.org/nothing", None),
    ] {
        assert_eq!(broken(&root(), own, target), why, "{target}");
    }
}

/// What names nothing is not passed over.
#[test]
fn wrong_names_are_found() {
    for (document, why) in [
        ("`unit_reader/Reader.readNothing`", "no such definition"),
        ("`ccsds/reader.readUnit`", "no such definition"),
        ("`history/Demand3.Closes.is-unknown`", "no such definition"),
        ("`history/Demand3.Takes.is-whole`", "no such definition"),
        ("`block/close_does_nothing`", "no such edit"),
        ("`unit_reader::read_nothing`", "no such function, type, constant or test"),
        ("`nothing::reader::read_unit`", "no such function, type, constant or test"),
        ("`refusals::nothing`", "no such function, type, constant or test"),
        ("`lipvezor::Block::nothing`", "no such function, type, constant or test"),
        ("`Nothing::open`", "no such function, type, constant or test"),
        ("`docs/NOTHING.md`", "no such file"),
        ("```c\n`within/a_block`\n```\n`docs/NOTHING.md`", "no such file"),
        ("edit `close_always_ambiguous`", "not an edit"),
        ("edits `closing/close_always_ambiguous`, `algebra/first_verdict`", "an edit of a definition, and not said to be one"),
        ("edits `algebra/first_verdict`", "an edit of a definition, and not said to be one"),
        ("edit of a definition `closing/close_always_ambiguous`", "an edit of code, and said to be one of a definition"),
        ("| wrong code |\n|---|\n| `algebra/first_verdict` |", "an edit of a definition, and not said to be one"),
        (
            "| x | wrong definition |\n|---|---|\n| | `closing/close_always_ambiguous` |",
            "an edit of code, and said to be one of a definition",
        ),
        ("test `written_units`", "not a test"),
        ("tests `units::sizes` and `units::report`", "not a test"),
        ("program `ccsds`", "not a program"),
    ] {
        let last = spans(document).pop().unwrap();
        assert_eq!(checked(&last), Err(why), "{document}");
    }
}
