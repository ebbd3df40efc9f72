//! Neither the writer nor anything that it calls has an array, and the call for C has none but the record that it is lent. What is walked is the
//! MIR, the program that is proved and compiled, as `make` writes it to target/mir: a list in JSON for each crate.
use std::collections::{BTreeMap, BTreeSet};
use std::fs;
use std::path::Path;
use Node::{List, Record, Text, Word};

/// A part of the MIR's text: a number or a word, a string in quotes, a list in brackets, or a record of named parts in braces.
enum Node<'a> {
    Word,
    Text(&'a str),
    List(Vec<Node<'a>>),
    Record(Vec<(&'a str, Node<'a>)>),
}

/// A list or a record that has not ended yet; of a record the name of the part that comes next.
enum Open<'a> {
    List(Vec<Node<'a>>),
    Record(Vec<(&'a str, Node<'a>)>, Option<&'a str>),
}

fn parse(mir: &str) -> Node<'_> {
    let mut open = vec![Open::List(Vec::new())];
    let mut rest = mir.trim_start();
    while let Some(first) = rest.chars().next() {
        let (node, length) = match (first, open.last_mut().expect("a bracket that is closed was opened")) {
            ('[', _) => {
                open.push(Open::List(Vec::new()));
                rest = rest[1..].trim_start();
                continue;
            }
            ('{', _) => {
                open.push(Open::Record(Vec::new(), None));
                rest = rest[1..].trim_start();
                continue;
            }
            (',', _) => {
                rest = rest[1..].trim_start();
                continue;
            }
            (']' | '}', _) => match open.pop() {
                Some(Open::List(nodes)) if first == ']' => (List(nodes), 1),
                Some(Open::Record(parts, None)) if first == '}' => (Record(parts), 1),
                _ => panic!("a bracket that is closed by another"),
            },
            ('"', last) => {
                let (text, after) = rest[1..].split_once('"').expect("a string ends");
                assert!(!text.contains('\\'), "a string of the MIR has an escape, which isn't read here: {text}");
                if let Open::Record(_, name @ None) = last {
                    *name = Some(text);
                    rest = after.trim_start().strip_prefix(':').expect("a colon after a part's name").trim_start();
                    continue;
                }
                (Text(text), text.len() + 2)
            }
            _ => {
                let word = rest.split(|c: char| c.is_whitespace() || "[]{}\",".contains(c)).next().unwrap();
                assert!(!word.is_empty(), "not read here: {first}");
                (Word, word.len())
            }
        };
        match open.last_mut().expect("a bracket that is closed was opened") {
            Open::List(nodes) => nodes.push(node),
            Open::Record(parts, name) => parts.push((name.take().expect("a part has a name"), node)),
        }
        rest = rest[length..].trim_start();
    }
    assert_eq!(open.len(), 1, "a bracket that is opened is closed");
    match open.pop() {
        Some(Open::List(mut nodes)) if nodes.len() == 1 => nodes.pop().unwrap(),
        _ => panic!("more than one list"),
    }
}

/// What stands in a part, without its own name.
fn inner<'a, 'b>(node: &'b Node<'a>) -> Vec<&'b Node<'a>> {
    match node {
        Word | Text(_) => Vec::new(),
        List(nodes) => nodes.iter().collect(),
        Record(parts) => parts.iter().map(|(_, node)| node).collect(),
    }
}

/// All named parts in a part, at any depth.
fn named<'a, 'b>(node: &'b Node<'a>) -> Vec<(&'a str, &'b Node<'a>)> {
    let (mut found, mut next) = (Vec::new(), vec![node]);
    while let Some(node) = next.pop() {
        if let Record(parts) = node {
            found.extend(parts.iter().map(|(name, part)| (*name, part)));
        }
        next.extend(inner(node));
    }
    found
}

#[derive(Default)]
struct Function<'a> {
    calls: Vec<&'a str>,
    /// Whether an array's type or literal stands in it, also as the field of a type that it names.
    array: bool,
    /// Whether one stands there otherwise than as what is read through a reference.
    own_array: bool,
    /// Why the walk can't go on from it: a trait's method that it calls, or a type without fields. Then nothing that write reaches may call it.
    fault: Option<String>,
}

/// An array's type, or a literal that repeats a value.
fn is_array(name: &str) -> bool {
    matches!(name, "Array" | "Repeat")
}

/// Whether what a reference `&` leads to has the type of an array: then that is passed over, and its elements are not.
fn lent<'a, 'b>(name: &str, part: &'b Node<'a>) -> Option<&'b Node<'a>> {
    let ty = match (name, part) {
        ("Ref", List(parts)) => match &parts[..] {
            [_, Text("Imm"), ty] => ty,
            _ => return None,
        },
        ("Deref", ty) => ty,
        _ => return None,
    };
    match ty {
        Record(parts) => match &parts[..] {
            [("Array", elements)] => Some(elements),
            _ => None,
        },
        _ => None,
    }
}

/// Whether an array's type or literal stands in a part, but for what a reference `&` leads to.
fn has_own_array(node: &Node) -> bool {
    match node {
        Record(parts) => parts.iter().any(|(name, part)| match lent(name, part) {
            Some(elements) => has_own_array(elements),
            None => is_array(name) || has_own_array(part),
        }),
        _ => inner(node).into_iter().any(has_own_array),
    }
}

/// The function of this path, where a part is one.
fn path_of<'a>(part: &Node<'a>) -> Option<&'a str> {
    match part {
        Record(parts) => match &parts[..] {
            [("Fn", List(parts))] => match parts[..] {
                [Text(path), ..] => Some(path),
                _ => None,
            },
            _ => None,
        },
        _ => None,
    }
}

/// A function by its body, its locals and the types that these name, with their fields.
fn function<'a>(path: &str, body: &Node<'a>) -> Function<'a> {
    let mut function = Function { own_array: has_own_array(body), ..Function::default() };
    let (mut types, mut declared, mut functions) = (BTreeSet::new(), BTreeSet::new(), 0);
    for (name, part) in named(body) {
        function.array |= is_array(name);
        match (name, part) {
            ("Call", List(parts)) => match parts.first().and_then(path_of) {
                Some(callee) => function.calls.push(callee),
                None => function.fault = Some(format!("{path} has a call that can't be followed")),
            },
            ("Fn", _) => functions += 1,
            ("Method", _) => function.fault = Some(format!("{path} has a call that can't be followed")),
            ("Named", List(parts)) => match &parts[..] {
                [Record(head), ..] => match head[..] {
                    [("name", Text(name)), ..] => {
                        types.insert(name);
                    }
                    _ => panic!("{path} has a named type without a name"),
                },
                _ => panic!("{path} has a named type without a name"),
            },
            ("types", List(all)) => {
                for ty in all {
                    if let Record(parts) = ty {
                        if let ([("name", Text(name)), ..], true) = (&parts[..], parts.iter().any(|(name, _)| *name == "shape")) {
                            declared.insert(*name);
                        }
                    }
                }
            }
            _ => {}
        }
    }
    // a function that is named and not called at once
    if functions != function.calls.len() {
        function.fault = Some(format!("{path} has a call that can't be followed"));
    }
    let bare = &types - &declared;
    if !bare.is_empty() {
        function.fault.get_or_insert(format!("{path} names types without fields: {bare:?}"));
    }
    function
}

/// The functions by their paths.
type Program<'a> = BTreeMap<&'a str, Function<'a>>;

/// The functions of crates, each by the text of its MIR.
fn program<'a>(crates: impl IntoIterator<Item = &'a str>) -> Program<'a> {
    let mut program = Program::new();
    for mir in crates {
        let List(functions) = parse(mir) else { panic!("the MIR of a crate is no list") };
        for it in &functions {
            let List(parts) = it else { panic!("a function of the MIR is no list") };
            let [Text(path), body] = &parts[..] else { panic!("a function of the MIR has no path") };
            assert!(program.insert(path, function(path, body)).is_none(), "{path} is there twice");
        }
    }
    program
}

/// All that a function reaches, itself too, each with a caller.
fn reached<'a>(program: &Program<'a>, start: &'a str) -> BTreeMap<&'a str, &'a str> {
    let mut callers = BTreeMap::from([(start, "the user")]);
    let mut next = vec![start];
    while let Some(path) = next.pop() {
        let function = program.get(path).unwrap_or_else(|| panic!("{path}, called by {}, has no body in the MIR", callers[path]));
        if let Some(fault) = &function.fault {
            panic!("{fault}");
        }
        for &callee in &function.calls {
            callers.entry(callee).or_insert_with(|| {
                next.push(callee);
                path
            });
        }
    }
    callers
}

/// Those with an array.
fn with_array<'a>(program: &Program<'a>, start: &'a str) -> Vec<String> {
    let with_array = reached(program, start).into_iter().filter(|(path, _)| program[path].array);
    with_array.map(|(path, caller)| format!("{path}, called by {caller}")).collect()
}

/// The MIR of the archive's crate and of those below it.
fn written() -> Vec<String> {
    let folder = Path::new(env!("CARGO_MANIFEST_DIR")).join("../target/mir");
    let files = fs::read_dir(&folder).unwrap_or_else(|error| panic!("target/mir: {error}; `make test-rust` writes it"));
    let files = files.map(|entry| entry.unwrap().path()).filter(|path| path.extension().is_some_and(|extension| extension == "json"));
    files.map(|path| fs::read_to_string(path).unwrap()).collect()
}

#[test]
fn write_reaches_no_array() {
    let mir = written();
    let (program, start) = (program(mir.iter().map(String::as_str)), "sending::writer::write");
    let found = with_array(&program, start);
    assert!(found.is_empty(), "functions with an array, reached by write:\n{}", found.join("\n"));
    println!("walked {} functions of {}", reached(&program, start).len(), program.len());
}

/// The call for C reads the block's numbers through a reference to an array of five, and that is all.
#[test]
fn write_for_c_is_lent_its_record_alone() {
    let mir = written();
    let (program, start) = (program(mir.iter().map(String::as_str)), "lipvezor::lipvezor_write");
    let reached = reached(&program, start);
    assert!(reached.contains_key("sending::writer::write"), "{reached:?}");
    let found = with_array(&program, start);
    assert_eq!(found, ["lipvezor::block_of, called by lipvezor::lipvezor_write", "lipvezor::lipvezor_write, called by the user"]);
    for path in reached.keys() {
        assert!(!program[path].own_array, "{path} has an array of its own");
    }
}

#[test]
fn arrays_of_take_and_encode_are_found() {
    let mir = written();
    let mut program = program(mir.iter().map(String::as_str));
    // These also call functions of Rattle's libraries, which are not written with the crates, and methods of a trait: they are taken to have no
    // array. write calls none.
    let called: BTreeSet<&str> = program.values().flat_map(|function| function.calls.iter().copied()).collect();
    for path in called {
        program.entry(path).or_default();
    }
    for function in program.values_mut() {
        function.fault = None;
    }
    for start in ["lipvezor::lipvezor_take", "lipvezor::lipvezor_encode"] {
        let found = with_array(&program, start);
        assert!(!found.is_empty(), "{start} has arrays, and the walk finds none");
        println!("{start} reaches {} functions with an array", found.len());
    }
}

const BYTE: &str = r#"{"Int":8}"#;
const ARRAY: &str = r#"{"Array":[{"Int":8},{"Lit":16}]}"#;
const NAMED: &str = r#"{"Ref":["Erased","Mut",{"Named":[{"name":"t","lifetimes":[]},[]]}]}"#;

/// The text of a function that has a local of this type and calls these; and the types that it names, with their fields.
fn made(path: &str, ty: &str, callees: &[&str], types: &str) -> String {
    let call =
        |callee: &&str| format!(r#""Seq",{{"Call":[{{"Fn":["{callee}",{{"types":[],"dicts":[]}}]}},[],{{"local":0,"steps":[]}}]}},"#);
    let calls: String = callees.iter().map(call).collect();
    format!(r#"["{path}",{{"lifetimes":0,"types":[{types}],"locals":[{{"ty":{ty},"home":"ValueLocal"}}],"body":[{calls}"Return"]}}]"#)
}

/// The text of a crate with these functions.
fn text(functions: &[String]) -> String {
    format!("[{}]\n", functions.join(","))
}

/// The functions with an array that `start` reaches.
fn found(functions: &[String]) -> Vec<String> {
    with_array(&program([text(functions).as_str()]), "start")
}

#[test]
fn array_two_calls_down() {
    let functions =
        |ty: &str| [made("start", BYTE, &["a", "b"], ""), made("a", BYTE, &[], ""), made("b", BYTE, &["c"], ""), made("c", ty, &[], "")];
    assert_eq!(found(&functions(ARRAY)), ["c, called by b"]);
    assert_eq!(found(&functions(&format!(r#"{{"Ref":["Erased","Imm",{ARRAY}]}}"#))), ["c, called by b"]);
    assert!(found(&functions(BYTE)).is_empty());
}

#[test]
fn array_of_another_crate() {
    let (low, high) = (text(&[made("low::a", ARRAY, &[], "")]), text(&[made("start", BYTE, &["low::a"], "")]));
    assert_eq!(with_array(&program([low.as_str(), high.as_str()]), "start"), ["low::a, called by start"]);
}

#[test]
fn array_behind_a_reference() {
    let own = |ty: &str| program([text(&[made("start", ty, &[], "")]).as_str()])["start"].own_array;
    assert!(!own(BYTE) && !own(&format!(r#"{{"Ref":["Erased","Imm",{ARRAY}]}}"#)) && !own(&format!(r#"{{"Deref":{ARRAY}}}"#)));
    assert!(own(ARRAY) && own(&format!(r#"{{"Ref":["Erased","Mut",{ARRAY}]}}"#)));
    assert!(own(&format!(r#"{{"Ref":["Erased","Imm",{{"Array":[{ARRAY},{{"Lit":2}}]}}]}}"#)));
}

#[test]
fn array_in_the_first_function() {
    assert_eq!(found(&[made("start", ARRAY, &[], "")]), ["start, called by the user"]);
}

#[test]
fn array_literal() {
    let literal = r#""Seq",{"Assign":[{"local":0,"steps":[]},{"Repeat":[{"Int":{"width":8,"value":0}},{"Lit":16}]}]},"Return""#;
    assert_eq!(found(&[made("start", BYTE, &[], "").replace(r#""Return""#, literal)]), ["start, called by the user"]);
}

#[test]
fn array_that_is_not_reached() {
    assert!(found(&[made("a", ARRAY, &["start"], ""), made("start", BYTE, &[], ""), made("z", ARRAY, &[], "")]).is_empty());
}

#[test]
fn array_in_a_field() {
    let fields = |ty| format!(r#"{{"name":"t","lifetimes":0,"shape":{{"Fields":[{ty}]}},"is_tuple":false}}"#);
    let functions = |ty| [made("start", BYTE, &["a"], ""), made("a", NAMED, &[], &fields(ty))];
    assert_eq!(found(&functions(ARRAY)), ["a, called by start"]);
    assert!(found(&functions(BYTE)).is_empty());
}

#[test]
fn calls_in_a_circle() {
    assert_eq!(found(&[made("start", BYTE, &["start", "a"], ""), made("a", ARRAY, &["start", "a"], "")]), ["a, called by start"]);
}

/// Neither their brackets nor their words count.
#[test]
fn strings() {
    let names = ["[", "Array", "a Repeat}"];
    let mut functions = vec![made("start", BYTE, &names, "")];
    functions.extend(names.map(|name| made(name, BYTE, &[], "")));
    assert!(found(&functions).is_empty());
}

#[test]
#[should_panic(expected = "b, called by a, has no body")]
fn call_without_a_body() {
    found(&[made("start", BYTE, &["a"], ""), made("a", BYTE, &["b"], "")]);
}

#[test]
#[should_panic(expected = "a call that can't be followed")]
fn call_through_a_pointer() {
    let callee = r#"{"Fn":["start",{"types":[],"dicts":[]}]}"#;
    found(&[made("start", BYTE, &["start"], "").replace(callee, r#"{"Copy":{"local":1,"steps":[]}}"#)]);
}

#[test]
#[should_panic(expected = "a call that can't be followed")]
fn call_of_a_method() {
    let callee = r#"{"Fn":["start",{"types":[],"dicts":[]}]}"#;
    found(&[made("start", BYTE, &["start"], "").replace(callee, r#"{"Method":[{"Given":0},0,{"types":[],"dicts":[]}]}"#)]);
}

/// A pointer to a function may be called elsewhere.
#[test]
#[should_panic(expected = "a call that can't be followed")]
fn function_that_is_passed_on() {
    let pointer = r#""Seq",{"Assign":[{"local":0,"steps":[]},{"Fn":["start",{"types":[],"dicts":[]}]}]},"Return""#;
    found(&[made("start", BYTE, &[], "").replace(r#""Return""#, pointer)]);
}

#[test]
#[should_panic(expected = "start names types without fields")]
fn type_without_fields() {
    found(&[made("start", NAMED, &[], "")]);
}

#[test]
#[should_panic(expected = "a bracket that is opened is closed")]
fn text_cut_off() {
    parse(r#"[["start",{"lifetimes":0"#);
}
