//! The rooms of `src/`: the ten files stand there, and no modules import one another, neither two nor
//! more in a circle, and no rooms do. Imports are read from the sources, those of `use` and those that
//! are written out where they are needed.

use std::collections::{BTreeMap, BTreeSet};
use std::fs;
use std::path::Path;

/// The files that render 01 and 02.
const TEN: [&str; 10] = [
    "check", "group", "hmac", "returns", "sealed", "sha256", "station", "status", "valley", "words",
];
const ROOMS: [&str; 3] = ["cases", "hosts", "tester"];

/// Sources by the names of their modules, `station` or `tester::world`. A room's is that of its
/// `mod.rs`, and the crate's own, which has no name, `lib.rs`.
type Sources = BTreeMap<String, String>;
/// Which modules a module imports.
type Imports = BTreeMap<String, BTreeSet<String>>;

fn inside(place: &str, name: &str) -> String {
    match place {
        "" => name.to_string(),
        _ => format!("{place}::{name}"),
    }
}

fn outside(place: &str) -> &str {
    place.rsplit_once("::").map_or("", |(outer, _)| outer)
}

/// The sources of a directory and of those in it. `main.rs` is a crate of its own, which no module can
/// import.
fn read(directory: &Path, place: &str, sources: &mut Sources) {
    for entry in fs::read_dir(directory).expect("a directory") {
        let path = entry.expect("an entry").path();
        let stem = path.file_stem().and_then(|stem| stem.to_str());
        let name = match stem.expect("a name") {
            "main" => continue,
            "lib" | "mod" => place.to_string(),
            name => inside(place, name),
        };
        match path.is_dir() {
            true => read(&path, &name, sources),
            false => {
                let source = fs::read_to_string(&path).expect("a source");
                sources.insert(name, source);
            }
        }
    }
}

fn sources() -> Sources {
    let mut sources = Sources::new();
    let directory = Path::new(env!("CARGO_MANIFEST_DIR")).join("src");
    read(&directory, "", &mut sources);
    sources
}

// ---- the paths that a source names ----------------------------------------------------------------

fn is_name(token: &str) -> bool {
    token.starts_with(|c: char| c.is_alphanumeric() || c == '_')
}

/// Names and signs, without comments. `~`, which is no sign of the language, stands for two colons.
fn tokens(source: &str) -> Vec<String> {
    let mut tokens = Vec::new();
    for line in source.lines() {
        let code = line.split("//").next().unwrap_or_default();
        let code = code.replace("::", "~");
        let mut rest = code.trim();
        while let Some(first) = rest.chars().next() {
            let size = match is_name(rest) {
                true => rest.find(|c: char| !(c.is_alphanumeric() || c == '_')),
                false => Some(first.len_utf8()),
            };
            let (token, after) = rest.split_at(size.unwrap_or(rest.len()));
            tokens.push(token.to_string());
            rest = after.trim_start();
        }
    }
    tokens
}

/// Finds the path that goes on at a token, or with braces each that they hold. Answers the place after
/// it.
fn follow(tokens: &[String], at: usize, before: &[String], found: &mut Vec<Vec<String>>) -> usize {
    let sign = |at: usize| tokens.get(at).map_or("", String::as_str);
    match sign(at) {
        "{" => {
            let mut at = at + 1;
            while at < tokens.len() && sign(at) != "}" {
                at = match sign(at) {
                    "," => at + 1,
                    "as" => at + 2,
                    _ => follow(tokens, at, before, found),
                };
            }
            at + 1
        }
        name if is_name(name) => {
            let path = [before, &[name.to_string()]].concat();
            if sign(at + 1) == "~" {
                return follow(tokens, at + 2, &path, found);
            }
            found.push(path);
            at + 1
        }
        _ => {
            found.push(before.to_vec());
            at + 1
        }
    }
}

fn paths(source: &str) -> Vec<Vec<String>> {
    let tokens = tokens(source);
    let mut found = Vec::new();
    for at in 1..tokens.len() {
        let begins = at < 2 || tokens[at - 2] != "~";
        if tokens[at] == "~" && begins {
            follow(&tokens, at - 1, &[], &mut found);
        }
    }
    found
}

// ---- which modules they are of --------------------------------------------------------------------

/// The modules that a path in a module names: the one that holds what is named. A room named whole is
/// all that stands in it.
fn named(path: &[String], own: &str, sources: &Sources) -> BTreeSet<String> {
    let mut place = match path[0].as_str() {
        "crate" => String::new(),
        "self" => own.to_string(),
        "super" => outside(own).to_string(),
        name if sources.contains_key(&inside(own, name)) => inside(own, name),
        _ => return BTreeSet::new(),
    };
    for name in &path[1..] {
        let next = match name.as_str() {
            "super" => outside(&place).to_string(),
            name => inside(&place, name),
        };
        if !sources.contains_key(&next) {
            break;
        }
        place = next;
    }
    let below = format!("{place}::");
    let all = sources.keys().filter(|module| {
        let is_in = module.starts_with(&below) || place.is_empty();
        is_in || **module == place
    });
    all.filter(|module| *module != own).cloned().collect()
}

fn imports(sources: &Sources) -> Imports {
    let of = |own: &str, source: &str| {
        let each = paths(source).into_iter();
        each.flat_map(|path| named(&path, own, sources)).collect()
    };
    let all = sources.iter();
    all.map(|(own, source)| (own.clone(), of(own, source)))
        .collect()
}

/// Which rooms import which. The files that stand in none are one room, `src`.
fn rooms(imports: &Imports) -> Imports {
    let room = |module: &str| match module.split("::").next() {
        Some(first) if ROOMS.contains(&first) => first.to_string(),
        _ => "src".to_string(),
    };
    let mut rooms = Imports::new();
    for (module, imported) in imports {
        let own = room(module);
        let others = imported.iter().map(|one| room(one));
        let others: Vec<String> = others.filter(|other| *other != own).collect();
        rooms.entry(own).or_default().extend(others);
    }
    rooms
}

/// A circle of modules each of which imports the next, if there is one. The first stands at its end
/// again.
fn circle(imports: &Imports) -> Option<Vec<String>> {
    let mut left = imports.clone();
    loop {
        // what imports nothing that is left is in no circle
        let is_free = |of: &BTreeSet<String>| of.iter().all(|one| !left.contains_key(one));
        let free = left.iter().filter(|(_, of)| is_free(of));
        let free: Vec<String> = free.map(|(module, _)| module.clone()).collect();
        if free.is_empty() {
            break;
        }
        left.retain(|module, _| !free.contains(module));
    }
    let mut walk = vec![left.keys().next()?.clone()];
    loop {
        let imported = left[&walk[walk.len() - 1]].iter();
        let next = imported.filter(|one| left.contains_key(*one)).min();
        let next = next.expect("each that is left imports another").clone();
        let met = walk.iter().position(|one| *one == next);
        walk.push(next);
        if let Some(start) = met {
            return Some(walk.split_off(start));
        }
    }
}

// ---- the tests ------------------------------------------------------------------------------------

#[test]
fn no_modules_import_one_another() {
    let found = circle(&imports(&sources()));
    assert!(found.is_none(), "a circle of imports: {found:?}");
}

#[test]
fn no_rooms_import_one_another() {
    let found = circle(&rooms(&imports(&sources())));
    assert!(found.is_none(), "a circle of rooms: {found:?}");
}

/// What is read is what is there: the ten and the rooms, and imports that everyone knows.
#[test]
fn the_rooms_are_read() {
    let sources = sources();
    let in_src: Vec<&String> = sources
        .keys()
        .filter(|module| !module.is_empty() && !module.contains("::"))
        .collect();
    let mut expected = [&TEN[..], &ROOMS[..]].concat();
    expected.sort();
    assert_eq!(in_src, expected);
    let imports = imports(&sources);
    for (module, imported) in [
        ("station", "words"),
        ("tester::asides", "tester::setup"),
        ("tester::world", "sealed"),
        ("cases::generate", "hosts::small_host"),
        ("cases::list_cases", "tester::random"),
    ] {
        assert!(imports[module].contains(imported), "{module}: {imported}");
    }
    let rooms = rooms(&imports);
    let of = |room: &str| -> Vec<&str> { rooms[room].iter().map(String::as_str).collect() };
    assert_eq!(of("src"), Vec::<&str>::new());
    assert_eq!(of("hosts"), ["src"]);
    assert_eq!(of("tester"), ["src"]);
    assert_eq!(of("cases"), ["hosts", "src", "tester"]);
}

/// Modules of these sources.
fn circle_of(planted: &[(&str, &str)]) -> Option<Vec<String>> {
    let each = planted.iter();
    let sources: Sources = each
        .map(|(module, source)| (module.to_string(), source.to_string()))
        .collect();
    circle(&imports(&sources))
}

#[test]
fn circles_are_found() {
    let two = [("a", "use crate::b::B;"), ("b", "use crate::a::A;")];
    assert_eq!(
        circle_of(&two),
        Some(["a", "b", "a"].map(String::from).into())
    );
    for planted in [
        // three, by braces over several lines and by a path in the code
        [
            ("a", "use crate::{\n    b::{B, Other as O},\n    d,\n};"),
            ("b", "fn f() -> u32 {\n    crate::c::C.number\n}"),
            ("c", "use super::a::A;"),
        ],
        // in a room, by a room that is named whole, and by what a room hands on
        [
            ("room", ""),
            ("room::a", "use super::b::{self};"),
            ("room::b", "pub(super) use crate::room::a::*;"),
        ],
        [
            ("room", ""),
            ("room::a", "use crate::c::C;"),
            ("c", "use crate::room; const A: u32 = room::a::A;"),
        ],
        [
            ("room", "pub mod a;\npub use a::A;"),
            ("room::a", "use super::A;"),
            ("c", ""),
        ],
    ] {
        assert!(circle_of(&planted).is_some(), "{planted:?}");
    }
    let none = [
        ("a", "// use crate::b::B;\nuse crate::c::C; // crate::b"),
        ("b", "use crate::a::A;\npub(crate) fn f() {}"),
        ("c", "use std::fmt;\nuse self::fmt::Debug;"),
    ];
    assert_eq!(circle_of(&none), None);
}
