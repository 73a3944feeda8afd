//! The structs and calls of src/ffi.rs are those of include/trading_calendar.h: names, fields, parameters and types, in order.

use std::collections::BTreeSet;
use std::fs;

#[test]
fn the_declarations_are_those_of_the_header() {
    let header = in_the_header(&read("../../include/trading_calendar.h"));
    let binding = in_the_binding(&read("src/ffi.rs"));
    println!("{} structs and calls", binding.len());
    assert!(header.iter().any(|line| line.starts_with("tc_")));
    assert!(header.iter().any(|line| line.starts_with("Hours(")));
    assert_eq!(header, binding);
}

fn read(path: &str) -> String {
    let path = format!("{}/{path}", env!("CARGO_MANIFEST_DIR"));
    fs::read_to_string(&path).unwrap_or_else(|error| panic!("{path}: {error}"))
}

/// A struct as Session(start: u32, end: u32), a call as tc_session_new(start: u32, end: u32) -> SessionResult.
fn declaration(name: &str, parts: &[String], answer: &str) -> String {
    format!("{name}({}){answer}", parts.join(", "))
}

fn in_the_header(text: &str) -> BTreeSet<String> {
    let text: Vec<&str> = text.split("/*").map(after_comment).collect();
    let text = text.concat();
    let structs = text.split("typedef struct {").skip(1).map(c_struct);
    let calls = text.split(';').filter(|part| part.contains('('));
    structs.chain(calls.map(c_call)).collect()
}

fn after_comment(part: &str) -> &str {
    part.split_once("*/").map_or(part, |(_, after)| after)
}

fn c_struct(text: &str) -> String {
    let (fields, rest) = text.split_once('}').expect("a struct");
    let (name, _) = rest.split_once(';').expect("its name");
    let parts: Vec<String> = fields.split(';').flat_map(c_fields).collect();
    declaration(&rust_type(name), &parts, "")
}

/// Of one type, as `uint32_t year, month, day`.
fn c_fields(text: &str) -> Vec<String> {
    let Some((of_type, names)) = text.trim().split_once(' ') else {
        return vec![];
    };
    let part = |name: &str| format!("{}: {}", name.trim(), rust_type(of_type));
    names.split(',').map(part).collect()
}

fn c_call(text: &str) -> String {
    let (start, parameters) = text.split_once('(').expect("a call");
    let (answer, name) = c_parameter(start);
    let parts = parameters.trim_end_matches(')').split(',').map(|text| {
        let (of_type, name) = c_parameter(text);
        format!("{name}: {of_type}")
    });
    let parts: Vec<String> = parts.collect();
    declaration(&name, &parts, &format!(" -> {answer}"))
}

/// The type and the name of `uint8_t *out`.
fn c_parameter(text: &str) -> (String, String) {
    let is_in_name = |c: char| c.is_alphanumeric() || c == '_';
    let of_type = text.trim().trim_end_matches(is_in_name);
    let name = text.trim().trim_start_matches(of_type);
    (rust_type(of_type), name.to_string())
}

fn rust_type(c_type: &str) -> String {
    match c_type.trim() {
        "uint32_t" => "u32".to_string(),
        "int32_t" => "i32".to_string(),
        "uint8_t" => "u8".to_string(),
        "size_t" => "usize".to_string(),
        "uint8_t *" => "*mut u8".to_string(),
        "uint32_t *" => "*mut u32".to_string(),
        "const uint8_t *" => "*const u8".to_string(),
        name => name.split('_').skip(1).map(capitalized).collect(),
    }
}

fn capitalized(word: &str) -> String {
    let (first, rest) = word.split_at(1);
    first.to_uppercase() + rest
}

fn in_the_binding(text: &str) -> BTreeSet<String> {
    let is_code = |line: &&str| !line.trim_start().starts_with("//");
    let lines: Vec<&str> = text.lines().filter(is_code).map(str::trim).collect();
    let text = lines.join(" ");
    let (before, calls) = text.split_once("extern \"C\" {").expect("calls");
    let structs = before.split("pub struct ").skip(1).map(rust_struct);
    let calls = calls.split(';').filter(|part| part.contains("fn "));
    structs.chain(calls.map(rust_call)).collect()
}

fn rust_struct(text: &str) -> String {
    let (name, fields) = text.split_once('{').expect("a struct");
    let (fields, _) = fields.split_once('}').expect("its end");
    declaration(name.trim(), &parts(&fields.replace("pub ", "")), "")
}

fn rust_call(text: &str) -> String {
    let (_, call) = text.split_once("fn ").expect("a call");
    let (name, rest) = call.split_once('(').expect("its parameters");
    let (parameters, answer) = rest.split_once(')').expect("their end");
    declaration(name, &parts(parameters), answer)
}

fn parts(text: &str) -> Vec<String> {
    let parts = text.split(',').map(|part| part.trim().to_string());
    parts.filter(|part| !part.is_empty()).collect()
}
