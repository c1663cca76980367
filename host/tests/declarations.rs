//! `src/raw.rs` says what the Rattle crate `boundary_c` exports: the same functions, with the same parameters in the same order. And each export of
//! `boundary_c` is the function of that name in `boundary`, on which the theorems stand: the same contract, in the same words, and a call of it.
use std::collections::{BTreeMap, BTreeSet};
use std::path::Path;

/// A function: its parameters, each a name and a type, and what it answers.
type Signature = (Vec<(String, String)>, String);

/// The text with comments taken out and blanks made one.
fn bare(text: &str) -> String {
    let lines: Vec<_> = text.lines().map(|line| line.split("//").next().unwrap()).collect();
    lines.join(" ").split_whitespace().collect::<Vec<_>>().join(" ")
}

/// The parts of a list that commas divide, outside of brackets.
fn divided(list: &str) -> Vec<String> {
    let (mut parts, mut depth) = (vec![String::new()], 0);
    for c in list.chars() {
        match c {
            '[' | '(' | '<' => depth += 1,
            ']' | ')' | '>' => depth -= 1,
            ',' if depth == 0 => {
                parts.push(String::new());
                continue;
            }
            _ => {}
        }
        parts.last_mut().unwrap().push(c);
    }
    parts.iter().map(|p| p.trim().to_string()).filter(|p| !p.is_empty()).collect()
}

/// Every function `sigatuda_..` that follows a mark.
fn functions(text: &str, mark: &str) -> BTreeMap<String, Signature> {
    let mut found = BTreeMap::new();
    for part in bare(text).split(mark).skip(1) {
        let (head, rest) = part.split_once('(').expect("a function has parameters");
        let name = head.split('<').next().unwrap().trim().to_string();
        let (parameters, rest) = rest.split_once(')').expect("its parameters end");
        let answer = rest.split(['{', ';']).next().unwrap().split(" ensures").next().unwrap();
        let answer = answer.trim().trim_start_matches("->").trim().to_string();
        let named = |p: &String| p.split_once(':').map(|(n, t)| (n.trim().to_string(), t.trim().to_string())).expect("a type");
        found.insert(name, (divided(parameters).iter().map(named).collect(), answer));
    }
    found
}

/// How a Rattle parameter crosses the boundary, after src/raw.rs.
fn crossed(name: &str, kind: &str) -> Vec<(String, String)> {
    let kind = kind.replace("&'a ", "&").replace("&mut 'a ", "&mut ");
    let of = |name: String, kind: &str| (name, kind.to_string());
    match kind.as_str() {
        "&[u8]" => vec![of(name.into(), "*const u8"), of(format!("{name}_len"), "usize")],
        "&mut [u8]" => vec![of(name.into(), "*mut u8"), of(format!("{name}_len"), "usize")],
        "&mut &[u8]" => vec![of(name.into(), "*mut Part")],
        other => {
            let other = match other.strip_prefix("&mut ") {
                Some(to) => format!("*mut {to}"),
                None => other.strip_prefix('&').map_or(other.to_string(), |to| format!("*const {to}")),
            };
            vec![of(name.into(), &other)]
        }
    }
}

/// What stands before each function that a Rattle crate exports under its own name.
const EXPORT: &str = "#[unsafe(no_mangle)] pub extern \"C\" fn ";

/// The functions that a Rattle source exports, as C sees them.
fn exported(source: &str) -> BTreeMap<String, Signature> {
    let crossed = |(parameters, answer): Signature| (parameters.iter().flat_map(|(name, kind)| crossed(name, kind)).collect(), answer);
    functions(source, EXPORT).into_iter().map(|(name, s)| (name, crossed(s))).collect()
}

/// The functions that src/raw.rs declares.
fn declared() -> BTreeMap<String, Signature> {
    functions(include_str!("../src/raw.rs"), "pub(crate) fn ")
}

/// The source files of a Rattle crate, by name.
fn sources(name: &str) -> BTreeMap<String, String> {
    let folder = Path::new(env!("CARGO_MANIFEST_DIR")).join("../crates").join(name).join("src");
    let files = std::fs::read_dir(&folder).unwrap_or_else(|e| panic!("{}: {e}", folder.display()));
    let mut paths: Vec<_> = files.map(|f| f.unwrap().path()).collect();
    paths.retain(|p| p.extension().is_some_and(|e| e == "rt"));
    let named = |p: &Path| p.file_stem().unwrap().to_str().unwrap().to_string();
    paths.iter().map(|p| (named(p), std::fs::read_to_string(p).unwrap())).collect()
}

/// The source of the crate `boundary_c`, all its files together.
fn archive() -> String {
    sources("boundary_c").into_values().collect()
}

#[test]
fn the_same_functions() {
    let (exported, declared) = (exported(&archive()), declared());
    for (name, signature) in &exported {
        assert_eq!(declared.get(name), Some(signature), "{name}: src/raw.rs against crates/boundary_c");
    }
    for name in declared.keys() {
        assert!(exported.contains_key(name), "{name} is not exported by crates/boundary_c");
    }
    // each function that crosses to C is exported under its own name
    let crossing = bare(&archive()).matches("extern \"C\"").count();
    assert_eq!(crossing, exported.len());
}

/// Every public function of a Rattle file: its text up to the body, and its body, both with no blanks and no comma before a bracket.
fn contracts(text: &str, mark: &str) -> BTreeMap<String, (String, String)> {
    let tight = |text: &str| text.split_whitespace().collect::<String>().replace(",)", ")");
    let mut found = BTreeMap::new();
    // a body begins and ends at the start of a line
    let code: Vec<_> = text.lines().map(|line| line.split("//").next().unwrap().trim_end()).collect();
    for part in code.join("\n").replace("]\npub", "] pub").split(mark).skip(1) {
        let (head, rest) = part.split_once("\n{\n").expect("a function has a body");
        let name = head.split(['(', '<']).next().unwrap().trim().to_string();
        let body = rest.split("\n}").next().unwrap();
        found.insert(name, (tight(head), tight(body)));
    }
    found
}

/// What a Rattle file imports for its contracts: each word with its path.
fn imports(text: &str) -> BTreeSet<(String, String)> {
    let mut found = BTreeSet::new();
    for item in bare(text).split("ghost use ").skip(1) {
        let (path, words) = item.split(';').next().unwrap().split_once(".{").expect("its words stand in braces");
        found.extend(divided(words.trim_end_matches('}')).into_iter().map(|word| (path.to_string(), word)));
    }
    found
}

#[test]
fn the_same_contracts() {
    let (calls, mut count) = (sources("boundary"), 0);
    for (file, text) in sources("boundary_c") {
        let call = calls.get(&file).unwrap_or_else(|| panic!("crates/boundary has no {file}"));
        assert!(imports(&text).is_subset(&imports(call)), "{file}: a word of a contract has another path");
        let ours = contracts(call, "pub fn ");
        for (name, (head, body)) in contracts(&text, EXPORT) {
            assert_eq!(Some(&head), ours.get(&name).map(|it| &it.0), "{name}: crates/boundary_c against crates/boundary");
            let parameters: Vec<_> = functions(&text, EXPORT)[&name].0.iter().map(|(name, _)| name.clone()).collect();
            assert_eq!(body, format!("boundary::{file}::{name}({})", parameters.join(",")));
            count += 1;
        }
    }
    assert_eq!(count, declared().len());
}

/// A struct of a source: the attributes right before it, and its fields.
fn structure(text: &str, head: &str) -> (Vec<String>, Vec<String>) {
    let text = bare(text);
    let (before, body) = text.split_once(&format!("{head} {{")).unwrap_or_else(|| panic!("there is no {head}"));
    // attributes stand behind the end of the item before, or behind the file's first lines
    let attributes = before.rsplit([';', '}']).next().unwrap();
    let attributes = attributes.split("#[").skip(1).map(|a| a.trim().trim_end_matches(']').to_string()).collect();
    (attributes, divided(body.split('}').next().unwrap()))
}

/// Whether a struct is laid out as C does.
fn as_in_c(attributes: &[String]) -> bool {
    attributes.iter().any(|attribute| attribute == "repr(C)")
}

#[test]
fn the_same_reply() {
    let (rattle, fields) = structure(include_str!("../../crates/arguments/src/lib.rt"), "pub struct Reply");
    let (rust, same) = structure(include_str!("../src/raw.rs"), "pub struct Reply");
    assert!(as_in_c(&rattle) && as_in_c(&rust), "{rattle:?}, {rust:?}");
    assert_eq!(fields, same);
}

/// A slice of Rattle is a pointer and a length, in this order.
#[test]
fn the_part_of_a_slice() {
    let (attributes, fields) = structure(include_str!("../src/raw.rs"), "pub(crate) struct Part");
    assert!(as_in_c(&attributes), "{attributes:?}");
    assert_eq!(fields, ["pub ptr: *const u8", "pub len: usize"]);
}

#[test]
fn attributes_of_one_struct_alone() {
    let raw = include_str!("../src/raw.rs");
    let places: Vec<_> = raw.match_indices("#[repr(C)]\n").map(|(at, _)| at).collect();
    let heads = ["pub struct Reply", "pub(crate) struct Part"];
    assert_eq!(places.len(), heads.len());
    for (at, without) in places.iter().zip(heads) {
        let text = [&raw[..*at], &raw[at + "#[repr(C)]\n".len()..]].concat();
        for head in heads {
            assert_eq!(as_in_c(&structure(&text, head).0), head != without, "{head}, where {without} has none");
        }
    }
}

#[test]
fn signatures_are_read_and_crossed() {
    let rattle = r#"
        // What it answers.
        #[unsafe(no_mangle)]
        pub extern "C" fn sigatuda_some<'a>(set: &'a [u8], id: &[u8; 16], // a comment, with a comma
            page: u32, part: &mut &'a [u8], log: &mut [u8; 16], out: &mut [u8]) -> Reply
            ensures none { result.code ≡ 0 }
            ensures left { out.new ≡ out.old }
        { Reply { code: 0, found: 0 } }
        #[unsafe(no_mangle)]
        pub extern "C" fn sigatuda_none() -> u32 { 1 }
    "#;
    let rust = "pub(crate) fn sigatuda_some(set: *const u8, set_len: usize, id: *const [u8; 16], page: u32, part: *mut Part, \
                log: *mut [u8; 16], out: *mut u8, out_len: usize) -> Reply; pub(crate) fn sigatuda_none() -> u32;";
    assert_eq!(exported(rattle), functions(rust, "pub(crate) fn "));
    assert_ne!(exported(&rattle.replace("page: u32", "page: u64")), functions(rust, "pub(crate) fn "));
    assert!(!exported(&rattle.replace("#[unsafe(no_mangle)]", "")).contains_key("sigatuda_some"));
    assert_eq!(declared().len(), 74);
}
