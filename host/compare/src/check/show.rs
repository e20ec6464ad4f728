//! A failing input as the text of a Rust test, to be pasted.

use std::fmt::Write;

use super::answer::Answer;
use super::case::Case;
use super::lent::{arguments, Argument, Value};

/// The group that passes as one struct by value; where a call takes it, it stands first.
const WALK: &str = "walk";

/// The text of a test that makes the call on this input and asks for the right answer and the right slices.
pub fn test<C: Case>(case: &C) -> String {
    let mut after = case.clone();
    let (answer, _) = after.expected();
    asked(case, after, answer)
}

/// The same, where what is right is known.
pub fn asked<C: Case>(case: &C, mut after: C, answer: C::Answer) -> String {
    let free = C::free(answer.word());
    let mut text = call(case) + &answered(answer);
    let compared = |argument: &Argument| {
        let is = |name: &&str| argument.is(name);
        C::WRITTEN.iter().any(is) && !free.iter().any(is)
    };
    let any_nan = C::ANY_NAN && answer.word() % 256 == 0;
    for argument in arguments(&mut after).into_iter().filter(compared) {
        text += &assertion(&argument, any_nan);
    }
    text + "}\n"
}

/// The lines that ask for the answer, number by number.
fn answered<A: Answer>(answer: A) -> String {
    let (count, number) = (answer.word() / 256, answer.word() % 256);
    let line = |(at, (name, value)): (usize, (&str, u64))| {
        let field = if name.is_empty() { "" } else { "." };
        let said = format!(" // {count} * 256 + {number}");
        let said = if at == 0 { said.as_str() } else { "" };
        format!("    assert_eq!(answer{field}{name}, {value});{said}\n")
    };
    answer.fields().into_iter().enumerate().map(line).collect()
}

/// The line that asks for an argument as it is here: floats by their bits, any NaN for any other where that will do.
fn assertion(argument: &Argument, any_nan: bool) -> String {
    let (name, value) = (argument.full_name(), value(argument));
    let bits = match argument.value {
        Value::Floats(_) if any_nan => {
            ".map(|x: f32| if x.is_nan() { u32::MAX } else { x.to_bits() })"
        }
        Value::Floats(_) => ".map(f32::to_bits)",
        _ => "",
    };
    format!("    assert_eq!({name}{bits}, {value}{bits});\n")
}

/// The test's text up to the call.
pub fn call<C: Case>(case: &C) -> String {
    let mut text = format!("#[test]\nfn {}_case() {{\n", C::NAME);
    let (mut call, mut fields) = (String::new(), Vec::new());
    for argument in arguments(&mut case.clone()) {
        let (name, value) = (argument.full_name(), value(&argument));
        if argument.owner == WALK {
            fields.push(format!("{}: {value}", argument.name));
        } else if C::WRITTEN.contains(&name.as_str()) {
            let _ = writeln!(text, "    let mut {name} = {value};");
            let _ = writeln!(call, "        &mut {name},");
        } else if argument.is_slice() {
            let _ = writeln!(call, "        &{value}, // {name}");
        } else {
            let _ = writeln!(call, "        {value}, // {name}");
        }
    }
    if !fields.is_empty() {
        let fields = fields.join(", ");
        call = format!("        safeteal::ffi::Walk {{ {fields} }},\n{call}");
    }
    let _ = writeln!(
        text,
        "    let answer = safeteal::ffi::{}(\n{call}    );",
        C::NAME
    );
    text
}

fn value(argument: &Argument) -> String {
    match &argument.value {
        Value::Size(value) => value.to_string(),
        Value::Int(value) => value.to_string(),
        Value::Float(value) => float(**value),
        Value::Flag(value) => value.to_string(),
        Value::Bytes(slice) => list(slice, "u8", u8::to_string),
        Value::Shorts(slice) => list(slice, "i16", i16::to_string),
        Value::Words(slice) => list(slice, "u16", u16::to_string),
        Value::Floats(slice) => list(slice, "f32", |value| float(*value)),
    }
}

/// A float that reads back to the same bits.
fn float(value: f32) -> String {
    let written = format!("{value:?}");
    let back = written.parse::<f32>().map(f32::to_bits);
    if value.is_finite() && back == Ok(value.to_bits()) {
        written
    } else {
        format!("f32::from_bits({:#x})", value.to_bits())
    }
}

fn list<T>(slice: &[T], kind: &str, write: impl Fn(&T) -> String) -> String {
    let written: Vec<String> = slice.iter().map(write).collect();
    match written.as_slice() {
        [] => format!("[0 as {kind}; 0]"),
        [first, rest @ ..] if rest.len() > 3 && rest.iter().all(|other| other == first) => {
            format!("[{first}; {}]", written.len())
        }
        _ => format!("[{}]", written.join(", ")),
    }
}
