//! Structs and calls as declared in C, Rust and Rattle, read from the text.

use std::collections::BTreeMap;

// Field types in order, by the struct's name.
pub type Structs = BTreeMap<String, Vec<String>>;

// Parameter types and result type of a call, structs written out.
#[derive(Clone, Debug, PartialEq, Eq)]
pub struct Signature {
    pub parameters: Vec<String>,
    pub result: String,
}

pub type Calls = BTreeMap<String, Signature>;

// The text between two marks, from the first start mark on, and what follows it.
fn between<'a>(text: &'a str, start: &str, end: &str) -> Option<(&'a str, &'a str)> {
    let (_, rest) = text.split_once(start)?;
    rest.split_once(end)
}

// Parts at the commas that stand in no bracket.
fn split_commas(text: &str) -> Vec<String> {
    let mut parts = vec![String::new()];
    let mut depth = 0;
    for letter in text.chars() {
        match letter {
            '[' | '(' => depth += 1,
            ']' | ')' => depth -= 1,
            _ => {}
        }
        match letter {
            ',' if depth == 0 => parts.push(String::new()),
            _ => parts.last_mut().unwrap().push(letter),
        }
    }
    let parts = parts.iter().map(|part| part.trim().to_string());
    parts.filter(|part| !part.is_empty()).collect()
}

fn words(text: &str) -> String {
    text.split_whitespace().collect::<Vec<_>>().join(" ")
}

// A struct as its field types in braces, with those of a struct within it in its place, any other
// type as it is.
fn written_out(structs: &Structs, name: &str) -> String {
    match structs.get(name) {
        Some(fields) => format!("{{{}}}", field_types(structs, fields).join(", ")),
        None => name.to_string(),
    }
}

fn field_types(structs: &Structs, fields: &[String]) -> Vec<String> {
    let types = |field: &String| match structs.get(field) {
        Some(within) => field_types(structs, within),
        None => vec![field.clone()],
    };
    fields.iter().flat_map(types).collect()
}

// Rust and Rattle without line comments.
fn without_line_comments(text: &str) -> String {
    let code = text.lines().map(|line| line.split("//").next().unwrap());
    code.collect::<Vec<_>>().join("\n")
}

// A length is 64 bits on the machines that the library is built for.
fn plain_type(name: &str) -> String {
    words(name).replace("usize", "u64")
}

pub fn rust_structs(text: &str) -> Structs {
    let code = without_line_comments(text);
    let mut structs = Structs::new();
    let mut rest = &code[..];
    while let Some((name, after)) = between(rest, "pub struct ", "{") {
        let (fields, after) = after.split_once('}').expect("end of struct");
        let field = |field: String| plain_type(field.split_once(':').expect("field").1);
        let fields = split_commas(fields).into_iter().map(field).collect();
        structs.insert(name.trim().to_string(), fields);
        rest = after;
    }
    structs
}

// A parameter of Rust or Rattle; a slice is a pointer and a length.
fn rust_parameter(structs: &Structs, parameter: &str) -> Vec<String> {
    let name = plain_type(parameter.split_once(':').expect("parameter").1);
    let element = |name: &str, start: &str| {
        let rest = name.strip_prefix(start)?;
        rest.strip_suffix(']').map(str::to_string)
    };
    if let Some(element) = element(&name, "&mut [") {
        vec![format!("*mut {element}"), "u64".to_string()]
    } else if let Some(element) = element(&name, "&[") {
        vec![format!("*const {element}"), "u64".to_string()]
    } else {
        vec![written_out(structs, &name)]
    }
}

pub fn rust_calls(text: &str, structs: &Structs) -> Calls {
    let code = without_line_comments(text);
    let mut calls = Calls::new();
    let mut rest = &code[..];
    while let Some((name, after)) = between(rest, "fn lukhtari_", "(") {
        let (parameters, after) = after.split_once(')').expect("end of parameters");
        let (_, result) = after.split_once("->").expect("result");
        let end = |letter: char| !(letter.is_alphanumeric() || letter == '_');
        let result = result.trim_start().split(end).next().unwrap();
        let each = split_commas(parameters);
        let each = each.iter().flat_map(|p| rust_parameter(structs, p));
        let signature = Signature {
            parameters: each.collect(),
            result: written_out(structs, result),
        };
        calls.insert(name.trim().to_string(), signature);
        rest = after;
    }
    calls
}

// The header without comments, preprocessor lines and assertions of sizes.
fn plain_header(text: &str) -> String {
    let mut code = String::new();
    let joined = text.replace("\\\n", " ");
    let mut rest = &joined[..];
    while let Some((before, after)) = rest.split_once("/*") {
        code.push_str(before);
        rest = after.split_once("*/").expect("end of comment").1;
    }
    code.push_str(rest);
    let declares = |line: &&str| !line.starts_with('#') && !line.starts_with("LUKHTARI_SIZE");
    let lines = code.lines().filter(declares);
    lines.collect::<Vec<_>>().join("\n")
}

fn c_number(name: &str) -> String {
    match name {
        "uint8_t" => "u8",
        "uint32_t" => "u32",
        "int32_t" => "i32",
        "int64_t" => "i64",
        "uint64_t" | "size_t" => "u64",
        "float" => "f32",
        other => other,
    }
    .to_string()
}

// A C declaration of one name, as `uint32_t counts[3]` or `const int32_t *samples`.
fn c_type(declaration: &str) -> String {
    let declaration = words(declaration);
    if let Some((element, _)) = declaration.split_once('*') {
        let element = element.trim();
        return match element.strip_prefix("const ") {
            Some(element) => format!("*const {}", c_number(element.trim())),
            None => format!("*mut {}", c_number(element)),
        };
    }
    let (name, declared) = declaration.rsplit_once(' ').expect("type and name");
    match between(declared, "[", "]") {
        Some((count, _)) => format!("[{}; {count}]", c_number(name)),
        None => c_number(name),
    }
}

pub fn c_structs(text: &str) -> Structs {
    let code = plain_header(text);
    let mut structs = Structs::new();
    let mut rest = &code[..];
    while let Some((name, after)) = between(rest, "typedef struct ", "{") {
        let (fields, after) = after.split_once('}').expect("end of struct");
        let fields = fields.split(';').filter(|field| !field.trim().is_empty());
        structs.insert(name.trim().to_string(), fields.map(c_type).collect());
        rest = after;
    }
    structs
}

pub fn c_calls(text: &str, structs: &Structs) -> Calls {
    let code = plain_header(text);
    let mut calls = Calls::new();
    for statement in code.split(';') {
        let Some((head, parameters)) = statement.split_once('(') else {
            continue;
        };
        let head = words(head);
        let head = head.rsplit(['}', '{']).next().unwrap();
        let (result, name) = head.rsplit_once(' ').expect("result and name");
        let parameters = parameters.split_once(')').expect("end of parameters").0;
        let each = split_commas(parameters);
        let each = each.iter().map(|p| written_out(structs, &c_type(p)));
        let signature = Signature {
            parameters: each.collect(),
            result: written_out(structs, result.trim()),
        };
        let name = name.strip_prefix("lukhtari_").expect("prefix");
        calls.insert(name.to_string(), signature);
    }
    calls
}
