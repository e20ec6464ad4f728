//! The C interface is written down three times: where it is proved, in `src/ffi.rs`, and in `safeteal.h`. They say the
//! same, and the library has no other declarations. The header's refusals and its version are the library's.

use std::fs;
use std::path::Path;
use std::process::Command;

use safeteal::Refusal;

/// Each function's name, its parameters in order and, at the end, its answer: `*const u8 luma`, `usize luma_len`, ..,
/// `u64`.
type Interface = Vec<(String, Vec<String>)>;

fn read(file: &Path) -> String {
    fs::read_to_string(file).unwrap_or_else(|error| panic!("{}: {error}", file.display()))
}

fn package() -> &'static Path {
    Path::new(env!("CARGO_MANIFEST_DIR"))
}

/// As it is proved: a slice is a pointer and a length, however long it is borrowed (`&'b [u8]`).
fn proved() -> Interface {
    let parameter = |text: &str| {
        let (name, kind) = text.trim().split_once(": ").expect("a name and a type");
        let slice = || kind.strip_prefix('&')?.strip_suffix(']')?.split_once('[');
        let pointer = |to: &str| vec![format!("*{to} {name}"), format!("usize {name}_len")];
        let Some((borrowed, of)) = slice() else {
            return vec![format!("{} {name}", bare(kind))];
        };
        let words: Vec<&str> = borrowed.split_whitespace().collect();
        match words[..] {
            [] => pointer(&format!("const {of}")),
            [lifetime] if lifetime.starts_with('\'') => pointer(&format!("const {of}")),
            ["mut"] => pointer(&format!("mut {of}")),
            [lifetime, "mut"] if lifetime.starts_with('\'') => pointer(&format!("mut {of}")),
            _ => panic!("{name}: the type {kind:?}"),
        }
    };
    let function = |text: &str| {
        let (name, rest) = text.split_once('(').expect("parameters");
        // the lifetimes' names stand between the function's name and its parameters
        let name = name.split('<').next().expect("a name");
        let (parameters, rest) = rest.split_once(") -> ").expect("an answer");
        let parameters = parameters.trim_end().trim_end_matches(',').split(',');
        let answer = rest.split_whitespace().next().expect("an answer");
        let lines = parameters
            .flat_map(parameter)
            .chain([bare(answer).to_owned()]);
        (name.to_owned(), lines.collect())
    };
    let text = read(&package().join("../../crates/host_c/src/lib.rt"));
    let functions = text.split("pub extern \"C\" fn ").skip(1);
    functions.map(function).collect()
}

/// A type's own name: a struct may be named with its crate.
fn bare(kind: &str) -> &str {
    kind.rsplit("::").next().expect("a name")
}

/// A list of `src/ffi.rs`.
fn lists(list: &[(&str, &[&str])]) -> Interface {
    let owned = |lines: &[&str]| lines.iter().map(|&line| line.to_owned()).collect();
    let rows = list.iter();
    rows.map(|(name, lines)| ((*name).to_owned(), owned(lines)))
        .collect()
}

/// The header's own text.
fn written() -> String {
    read(&package().join("../safeteal.h"))
}

/// What the C compiler makes of the header: macros and comments are gone.
fn expanded() -> String {
    let run = Command::new("cc")
        .args(["-std=c99", "-E", "-P"])
        .arg(package().join("../safeteal.h"))
        .output()
        .expect("the C compiler, which cargo links with as well");
    assert!(
        run.status.success(),
        "{}",
        String::from_utf8_lossy(&run.stderr)
    );
    String::from_utf8(run.stdout).expect("a text")
}

/// The text with a semicolon for all that stands in braces.
fn without_bodies(text: &str) -> String {
    let mut depth = 0;
    let kept = text.chars().filter_map(|letter| {
        depth += usize::from(letter == '{');
        let inside = depth > 0;
        depth -= usize::from(letter == '}');
        match (inside, letter) {
            (false, _) => Some(letter),
            (true, '}') if depth == 0 => Some(';'),
            (true, _) => None,
        }
    });
    kept.collect()
}

/// A parameter of the header in Rust's words. A slice that is written is `restrict`, and no other is.
fn parameter(text: &str) -> String {
    let text = text.trim();
    let ends = text.rfind([' ', '*']).expect("a type and a name") + 1;
    let (of, name) = (text[..ends].trim_end(), &text[ends..]);
    match of.split(' ').collect::<Vec<_>>()[..] {
        ["const", of, "*"] => format!("*const {} {name}", kind(of)),
        [of, "*restrict"] => format!("*mut {} {name}", kind(of)),
        _ if !of.contains('*') => format!("{} {name}", kind(of)),
        _ => panic!("{text:?}: a pointer is const or restrict"),
    }
}

/// A type of C in Rust's words.
fn kind(c: &str) -> &'static str {
    const TYPES: [(&str, &str); 11] = [
        ("uint8_t", "u8"),
        ("int16_t", "i16"),
        ("uint16_t", "u16"),
        ("int32_t", "i32"),
        ("uint64_t", "u64"),
        ("size_t", "usize"),
        ("float", "f32"),
        ("_Bool", "bool"),
        ("struct safeteal_sizes", "Sizes"),
        ("struct safeteal_walk", "Walk"),
        ("struct safeteal_walked", "Walked"),
    ];
    let found = TYPES.iter().find(|(name, _)| *name == c);
    found.unwrap_or_else(|| panic!("the type {c:?}")).1
}

/// As the header says it to the C compiler, in Rust's words for C's types; its inline functions are not the library's.
fn header() -> Interface {
    let text = without_bodies(&expanded());
    let declarations = text.split(';').filter_map(|text| {
        let (head, parameters) = text.trim().rsplit_once('(')?;
        let (answer, name) = head.rsplit_once(" safeteal_")?;
        if answer.starts_with("static inline ") {
            return None;
        }
        let parameters = parameters.strip_suffix(')')?.split(',');
        let lines = parameters.map(parameter).chain([kind(answer).to_owned()]);
        Some((format!("safeteal_{name}"), lines.collect()))
    });
    declarations.collect()
}

/// The structs of a text that are declared with these words before them, field by field: each field ends with `end`,
/// and `field` says it in Rust's words.
fn structs(text: &str, before: &str, end: char, field: impl Fn(&str) -> String) -> Interface {
    // a field may be such a struct as well
    let declarations = text.match_indices(before).filter_map(|(at, _)| {
        let (name, rest) = text[at + before.len()..].split_once(' ')?;
        let (fields, _) = rest.strip_prefix('{')?.split_once('}')?;
        let fields = fields.split(end).map(str::trim);
        let fields = fields.filter(|text| !text.is_empty()).map(&field);
        Some((name.to_owned(), fields.collect()))
    });
    declarations.collect()
}

/// What passes as more numbers than one: the same fields wherever it is declared, in the same order.
#[test]
fn the_structs_are_those_that_are_proved() {
    let text = read(&package().join("../../crates/rules/src/lib.rt"));
    let proved = structs(
        &text,
        "#[repr(C)]\n#[derive(Clone, Copy)]\npub struct ",
        ',',
        |text| {
            let text = text.strip_prefix("pub ").expect("a field that is seen");
            let (name, of) = text.split_once(": ").expect("a name and a type");
            format!("{of} {name}")
        },
    );
    assert_eq!(proved.len(), 3, "{proved:?}");
    assert_eq!(lists(safeteal::ffi::STRUCTS), proved, "in src/ffi.rs");
    let header = structs(&expanded(), "struct safeteal_", ';', parameter);
    let header = header.into_iter().map(|(name, fields)| {
        let name = kind(&format!("struct safeteal_{name}")).to_owned();
        (name, fields)
    });
    assert_eq!(header.collect::<Interface>(), proved, "in safeteal.h");
}

#[test]
fn the_declarations_are_those_that_are_proved() {
    let (proved, declared, header) = (proved(), lists(safeteal::ffi::DECLARED), header());
    assert_eq!(proved.len(), 22);
    assert_eq!((declared.len(), header.len()), (22, 22));
    for ((name, _), (other, _)) in declared.iter().zip(&header) {
        assert_eq!(name, other, "src/ffi.rs and safeteal.h have one order");
    }
    for (name, lines) in &proved {
        let of = |interface: &Interface| {
            let found = interface.iter().find(|(other, _)| other == name);
            found.map(|(_, lines)| lines.clone())
        };
        assert_eq!(of(&declared).as_ref(), Some(lines), "{name} in src/ffi.rs");
        assert_eq!(of(&header).as_ref(), Some(lines), "{name} in safeteal.h");
    }
}

/// Nothing in the library's sources but `src/ffi.rs` declares a function in C.
#[test]
fn there_are_no_other_declarations() {
    let mut folders = vec![package().join("src")];
    let mut files = Vec::new();
    while let Some(folder) = folders.pop() {
        for entry in fs::read_dir(&folder).expect("a folder of the package") {
            let path = entry.expect("a file of the package").path();
            let list = if path.is_dir() {
                &mut folders
            } else {
                &mut files
            };
            list.push(path);
        }
    }
    files.retain(|file| read(file).contains("extern \"C\""));
    assert_eq!(files, [package().join("src/ffi.rs")]);
}

/// The enum of the header, name by name: `Refusal`'s, in capitals, and acceptance.
#[test]
fn the_refusals_have_the_numbers_of_the_library() {
    let text = written();
    let (_, rest) = text
        .split_once("enum safeteal_refusal {")
        .expect("the enum of refusals");
    let (list, _) = rest.split_once('}').expect("the enum's end");
    let listed: Vec<(String, u8)> = list
        .split(',')
        .map(|line| {
            let (name, number) = line.split_once('=').expect("a name and its number");
            let number = number.trim().parse().expect("a number");
            (name.trim().to_owned(), number)
        })
        .collect();
    let accepted = ("SAFETEAL_ACCEPTED".to_owned(), 0);
    let refused = Refusal::ALL.iter().map(|refusal| {
        let name = format!("{refusal:?}").to_uppercase();
        (format!("SAFETEAL_REFUSED_{name}"), refusal.number())
    });
    let expected: Vec<(String, u8)> = [accepted].into_iter().chain(refused).collect();
    assert_eq!(listed, expected);
    for (name, _) in listed {
        assert!(text.contains(&format!("case {name}:")), "words for {name}");
    }
}

#[test]
fn the_header_has_the_version_of_the_package() {
    let text = written();
    let defined = |name: &str| {
        let start = format!("#define SAFETEAL_VERSION{name} ");
        let found = text.lines().find_map(|line| line.strip_prefix(&start));
        found.unwrap_or_else(|| panic!("no line {start:?}"))
    };
    assert_eq!(defined(""), format!("{:?}", env!("CARGO_PKG_VERSION")));
    assert_eq!(defined("_MAJOR"), env!("CARGO_PKG_VERSION_MAJOR"));
    assert_eq!(defined("_MINOR"), env!("CARGO_PKG_VERSION_MINOR"));
    assert_eq!(defined("_PATCH"), env!("CARGO_PKG_VERSION_PATCH"));
}
