//! Holds the declarations of the calls against each other: the C header, the Rust wrapper's
//! `extern "C"` blocks, and the exported functions of the Rattle crates. Name, order and type of
//! every parameter and the type of the answer have to be the same in all three. So do the numbers of
//! the refusals, in the header's table and in the crate that numbers them.
//!
//!     declarations ROOT
//!
//! The header is ROOT/include/netbuff.h. The crates are those that export something, the wrapper is
//! whichever Rust file below ROOT/bindings declares `extern "C"`. Ends with 1 and one line for each
//! difference. `rustc --test` makes the tests of this program itself.

use std::collections::{BTreeMap, BTreeSet};
use std::path::{Path, PathBuf};
use std::{env, fmt, fs, process};

/// Rattle's u32 is taken for a signed number or a float in C where the parameter has this name.
/// One name is one thing, so this holds for all calls.
const READ_AS: [(&str, &str); 16] = [
    ("types", "i32"),
    ("muls", "i32"),
    ("sharpness", "i32"),
    ("hf_mul", "i32"),
    ("hf_mul2", "i32"),
    ("out_hf_mul", "i32"),
    ("lf_thresholds", "i32"),
    ("lf0", "i32"),
    ("lf1", "i32"),
    ("lf2", "i32"),
    ("grid0", "i32"),
    ("grid1", "i32"),
    ("grid2", "i32"),
    ("sigma", "f32"),
    ("sigma2", "f32"),
    // Answers: the call's name in place of a parameter's.
    ("netbuff_unpack_signed", "i32"),
];

/// Calls that no Rattle crate exports: they are written in C, and the C compiler holds them against
/// the header.
const IN_C: [&str; 1] = ["netbuff_version"];

/// A type as all three languages have it.
#[derive(Clone, PartialEq, Eq, Debug)]
enum Type {
    Value(String),
    /// To constant or changing memory: one element, a list of them, or an array of so many.
    Pointer(bool, String, Option<usize>),
}

#[derive(Clone, PartialEq, Eq, Debug)]
struct Call {
    parameters: Vec<(String, Type)>,
    answer: Option<String>,
}

type Calls = BTreeMap<String, Call>;

impl fmt::Display for Type {
    fn fmt(&self, f: &mut fmt::Formatter) -> fmt::Result {
        match self {
            Type::Value(of) => write!(f, "{of}"),
            Type::Pointer(constant, of, count) => {
                let kind = if *constant { "const" } else { "mut" };
                match count {
                    None => write!(f, "*{kind} {of}"),
                    Some(n) => write!(f, "*{kind} [{of}; {n}]"),
                }
            }
        }
    }
}

impl fmt::Display for Call {
    fn fmt(&self, f: &mut fmt::Formatter) -> fmt::Result {
        let list: Vec<String> = (self.parameters.iter())
            .map(|(name, of)| format!("{name}: {of}"))
            .collect();
        let answer = self.answer.as_deref().unwrap_or("nothing");
        write!(f, "({}) -> {answer}", list.join(", "))
    }
}

/// Text between `open` and its `close`, and what follows.
fn bracketed(text: &str, open: char, close: char) -> Option<(&str, &str)> {
    let start = text.find(open)?;
    let mut depth = 0;
    for (at, c) in text[start..].char_indices() {
        if c == open {
            depth += 1;
        } else if c == close {
            depth -= 1;
            if depth == 0 {
                return Some((&text[start + 1..start + at], &text[start + at + 1..]));
            }
        }
    }
    None
}

/// Parts between commas that stand in no brackets.
fn parts(text: &str) -> Vec<String> {
    let (mut depth, mut all) = (0, vec![String::new()]);
    for c in text.chars() {
        match c {
            '(' | '[' | '<' => depth += 1,
            ')' | ']' | '>' => depth -= 1,
            _ => {}
        }
        if c == ',' && depth == 0 {
            all.push(String::new());
        } else {
            all.last_mut().unwrap().push(c);
        }
    }
    let trimmed = all.iter().map(|part| part.trim().to_string());
    trimmed.filter(|part| !part.is_empty()).collect()
}

/// Without comments; `#` lines (C) and `#[..]` (Rust, Rattle) keep standing.
fn uncommented(text: &str) -> String {
    let mut out = String::new();
    let mut rest = text;
    while let Some(at) = rest.find('/') {
        out.push_str(&rest[..at]);
        rest = &rest[at..];
        if rest.starts_with("//") {
            rest = &rest[rest.find('\n').unwrap_or(rest.len())..];
        } else if rest.starts_with("/*") {
            rest = rest.find("*/").map_or("", |end| &rest[end + 2..]);
        } else {
            out.push('/');
            rest = &rest[1..];
        }
    }
    out + rest
}

fn array(inner: &str) -> Result<(String, usize), String> {
    let (of, count) = (inner.split_once(';')).ok_or(format!("no array: [{inner}]"))?;
    let number = count.trim().parse();
    let count = number.map_err(|_| format!("array of no number: [{inner}]"))?;
    Ok((of.trim().to_string(), count))
}

// ---- C

fn c_type(name: &str) -> Result<String, String> {
    let known = match name {
        "uint8_t" => "u8",
        "uint16_t" => "u16",
        "uint32_t" => "u32",
        "uint64_t" => "u64",
        "int32_t" => "i32",
        "int64_t" => "i64",
        "size_t" => "usize",
        "bool" => "bool",
        "float" => "f32",
        _ => return Err(format!("C type {name} is not known")),
    };
    Ok(known.to_string())
}

fn c_parameter(text: &str) -> Result<(String, Type), String> {
    let constant = text.starts_with("const ");
    let text = text.strip_prefix("const ").unwrap_or(text).trim();
    let end = text.find(|c: char| !c.is_alphanumeric() && c != '_');
    let (of, rest) = text.split_at(end.ok_or(format!("no parameter: {text}"))?);
    let of = c_type(of)?;
    let rest = rest.trim();
    if let Some(name) = rest.strip_prefix('*') {
        return Ok((name.trim().to_string(), Type::Pointer(constant, of, None)));
    }
    if let Some((count, _)) = bracketed(rest, '[', ']') {
        let name = rest.split('[').next().unwrap().trim().to_string();
        let (_, count) = array(&format!("{of}; {count}"))?;
        return Ok((name, Type::Pointer(constant, of, Some(count))));
    }
    Ok((rest.to_string(), Type::Value(of)))
}

/// The functions that the header declares and does not define.
fn of_header(text: &str) -> Result<Calls, String> {
    let text = uncommented(text);
    let mut calls = Calls::new();
    let mut rest = text.as_str();
    while let Some(at) = rest.find("netbuff_") {
        let head = rest[..at].rsplit(['\n', ';', '}']).next().unwrap().trim();
        let tail = &rest[at..];
        let end = tail
            .find(|c: char| !c.is_alphanumeric() && c != '_')
            .unwrap_or(tail.len());
        let (name, tail) = tail.split_at(end);
        rest = tail;
        let words: Vec<&str> = head.split_whitespace().collect();
        if !tail.starts_with('(') || words.len() != 1 {
            continue;
        }
        let (inside, behind) = bracketed(tail, '(', ')').ok_or("unclosed bracket")?;
        if !behind.starts_with(';') || words[0] == "return" {
            continue;
        }
        let flat = inside.split_whitespace().collect::<Vec<_>>().join(" ");
        let given = if flat == "void" { vec![] } else { parts(&flat) };
        let read: Result<_, _> = given.iter().map(|part| c_parameter(part)).collect();
        let answer = if words[0] == "void" {
            None
        } else {
            Some(c_type(words[0])?)
        };
        let call = Call {
            parameters: read.map_err(|e| format!("{name}: {e}"))?,
            answer,
        };
        if calls.insert(name.to_string(), call).is_some() {
            return Err(format!("{name} is declared twice"));
        }
    }
    Ok(calls)
}

// ---- Rust and Rattle

/// A type behind `&` or `*const` and the like; lists of Rattle are told apart by the caller.
fn pointed(constant: bool, of: &str) -> Result<Type, String> {
    if let Some(inner) = of
        .strip_prefix('[')
        .and_then(|inner| inner.strip_suffix(']'))
    {
        let (of, count) = array(inner)?;
        return Ok(Type::Pointer(constant, of, Some(count)));
    }
    Ok(Type::Pointer(constant, of.to_string(), None))
}

/// Without a lifetime behind `&`.
fn unlived(text: &str) -> &str {
    let text = text.trim();
    match text.strip_prefix('\'') {
        Some(rest) => rest.split_once(' ').map_or("", |(_, of)| of.trim()),
        None => text,
    }
}

fn rust_type(text: &str) -> Result<Type, String> {
    let text = text.trim();
    for (prefix, constant) in [("*const ", true), ("*mut ", false)] {
        if let Some(of) = text.strip_prefix(prefix) {
            return pointed(constant, of.trim());
        }
    }
    if let Some(of) = text.strip_prefix('&') {
        let of = unlived(of);
        return match of.strip_prefix("mut ") {
            Some(of) => pointed(false, of.trim()),
            None => pointed(true, of),
        };
    }
    Ok(Type::Value(text.to_string()))
}

/// Name, parameters as they stand, and answer of each `fn netbuff_..`.
type Signature = (String, Vec<(String, String)>, Option<String>);

fn signatures(text: &str) -> Result<Vec<Signature>, String> {
    let mut all = Vec::new();
    let mut rest = text;
    while let Some(at) = rest.find("fn netbuff_") {
        let tail = &rest[at + 3..];
        let end = tail
            .find(|c: char| !c.is_alphanumeric() && c != '_')
            .unwrap_or(tail.len());
        let name = tail[..end].to_string();
        let (inside, behind) = bracketed(tail, '(', ')').ok_or(format!("{name}: no list"))?;
        let mut parameters = Vec::new();
        for part in parts(inside) {
            let (name, of) = part
                .split_once(':')
                .ok_or(format!("no parameter: {part}"))?;
            let of = of.split_whitespace().collect::<Vec<_>>().join(" ");
            parameters.push((name.trim().to_string(), of));
        }
        let answer = behind.trim_start().strip_prefix("->").map(|said| {
            let word = said.trim_start();
            let end = word
                .find(|c: char| !c.is_alphanumeric())
                .unwrap_or(word.len());
            word[..end].to_string()
        });
        all.push((name, parameters, answer));
        rest = behind;
    }
    Ok(all)
}

/// The functions of the wrapper's `extern "C"` blocks.
fn of_rust(text: &str, calls: &mut Calls) -> Result<(), String> {
    let text = uncommented(text);
    let mut rest = text.as_str();
    while let Some(at) = rest.find("extern \"C\" {") {
        let (inside, behind) = bracketed(&rest[at..], '{', '}').ok_or("unclosed block")?;
        for (name, given, answer) in signatures(inside)? {
            let mut parameters = Vec::new();
            for (called, of) in given {
                let of = rust_type(&of).map_err(|e| format!("{name}: {e}"))?;
                parameters.push((called, of));
            }
            if calls
                .insert(name.clone(), Call { parameters, answer })
                .is_some()
            {
                return Err(format!("{name} is declared twice"));
            }
        }
        rest = behind;
    }
    Ok(())
}

fn read_as(name: &str, of: &str) -> String {
    let found = READ_AS.iter().find(|(known, _)| *known == name);
    match found {
        Some((_, other)) if of == "u32" => other.to_string(),
        _ => of.to_string(),
    }
}

/// What C sees of a Rattle parameter: a slice is a pointer and a length.
fn rattle_parameter(name: &str, of: &str) -> Result<Vec<(String, Type)>, String> {
    let name = name.to_string();
    let Some(lent) = of.strip_prefix('&') else {
        return Ok(vec![(name.clone(), Type::Value(read_as(&name, of)))]);
    };
    let lent = unlived(lent);
    let constant = !lent.starts_with("mut ");
    let lent = lent.strip_prefix("mut ").unwrap_or(lent).trim();
    let slice = lent
        .strip_prefix('[')
        .and_then(|inner| inner.strip_suffix(']'));
    if let Some(of) = slice.filter(|inner| !inner.contains(';')) {
        let list = Type::Pointer(constant, read_as(&name, of.trim()), None);
        let length = (format!("{name}_length"), Type::Value("usize".to_string()));
        return Ok(vec![(name, list), length]);
    }
    Ok(match pointed(constant, lent)? {
        Type::Pointer(constant, of, count) => {
            let of = read_as(&name, &of);
            vec![(name, Type::Pointer(constant, of, count))]
        }
        other => vec![(name, other)],
    })
}

/// The exported functions of a Rattle file.
fn of_rattle(text: &str, calls: &mut Calls) -> Result<(), String> {
    let text = uncommented(text);
    for piece in text.split("extern \"C\" ").skip(1) {
        // One function stands behind each `extern "C"`, and others may follow it.
        let Some((name, given, answer)) = signatures(piece)?.into_iter().next() else {
            return Err("an exported function whose name does not begin with netbuff_".into());
        };
        let mut parameters = Vec::new();
        for (called, of) in given {
            parameters.extend(rattle_parameter(&called, &of).map_err(|e| format!("{name}: {e}"))?);
        }
        let answer = answer.map(|of| read_as(&name, &of));
        if calls
            .insert(name.clone(), Call { parameters, answer })
            .is_some()
        {
            return Err(format!("{name} is exported twice"));
        }
    }
    Ok(())
}

// ---- The comparison

/// One line for each difference between two languages.
fn differences(
    ours: &Calls,
    mine: &str,
    theirs: &Calls,
    other: &str,
    free: &[&str],
) -> Vec<String> {
    let mut said = Vec::new();
    let names: BTreeSet<&String> = ours.keys().chain(theirs.keys()).collect();
    for name in names
        .into_iter()
        .filter(|name| !free.contains(&name.as_str()))
    {
        match (ours.get(name), theirs.get(name)) {
            (Some(a), Some(b)) if a == b => {}
            (Some(a), Some(b)) => said.push(difference(name, a, mine, b, other)),
            (None, _) => said.push(format!("{name}: in {other}, not in {mine}")),
            (_, None) => said.push(format!("{name}: in {mine}, not in {other}")),
        }
    }
    said
}

fn difference(name: &str, a: &Call, mine: &str, b: &Call, other: &str) -> String {
    let pairs = a.parameters.iter().zip(&b.parameters).enumerate();
    for (at, (x, y)) in pairs {
        if x != y {
            return format!(
                "{name}: parameter {} is `{}: {}` in {mine}, `{}: {}` in {other}",
                at + 1,
                x.0,
                x.1,
                y.0,
                y.1
            );
        }
    }
    format!("{name}: {mine} has {a}, {other} has {b}")
}

/// The numbers behind each `open`, in front of the next comma: refusals as header and Rattle have them.
fn numbers(text: &str, open: &str, skipped: usize) -> BTreeSet<u32> {
    let pieces = text.split(open).skip(1);
    let fields = pieces.filter_map(|piece| piece.split([',', ')']).nth(skipped));
    fields
        .filter_map(|field| field.trim().parse().ok())
        .collect()
}

fn refusals(header: &str, rattle: &str) -> Vec<String> {
    let ours = numbers(header, "refusal(", 1);
    let theirs = numbers(rattle, " said_at(", 0);
    if ours.is_empty() || theirs.is_empty() {
        return vec!["no refusals found in the header, or none in Rattle".to_string()];
    }
    let apart = ours.symmetric_difference(&theirs);
    apart
        .map(|number| format!("refusal {number} is not in both, header and Rattle"))
        .collect()
}

fn files(folder: &Path, ending: &str, found: &mut Vec<PathBuf>) {
    let Ok(entries) = fs::read_dir(folder) else {
        return;
    };
    for path in entries.flatten().map(|entry| entry.path()) {
        let made = |name: &std::ffi::OsStr| name == "target" || name == "out";
        if path.is_dir() && !path.file_name().is_some_and(made) {
            files(&path, ending, found);
        } else if path.extension().is_some_and(|name| name == ending) {
            found.push(path);
        }
    }
}

fn text_of(path: &Path) -> Result<String, String> {
    fs::read_to_string(path).map_err(|e| format!("{}: {e}", path.display()))
}

fn check(root: &Path) -> Result<Vec<String>, String> {
    let header_text = uncommented(&text_of(&root.join("include/netbuff.h"))?);
    let header = of_header(&header_text)?;
    let mut numbered = String::new();
    let (mut rattle, mut rust) = (Calls::new(), Calls::new());
    let (mut crates, mut bindings) = (Vec::new(), Vec::new());
    files(&root.join("crates"), "rt", &mut crates);
    files(&root.join("bindings"), "rs", &mut bindings);
    let named = |path: &Path, e: String| format!("{}: {e}", path.display());
    for path in crates
        .iter()
        .filter(|path| path.iter().any(|part| part == "src"))
    {
        let text = text_of(path)?;
        of_rattle(&text, &mut rattle).map_err(|e| named(path, e))?;
        if text.contains("pub enum Refusal ") {
            numbered += &uncommented(&text);
        }
    }
    for path in &bindings {
        of_rust(&text_of(path)?, &mut rust).map_err(|e| named(path, e))?;
    }
    if header.is_empty() || rattle.is_empty() || rust.is_empty() {
        return Err("one of the three declares nothing".to_string());
    }
    let mut said = differences(&header, "the header", &rattle, "Rattle", &IN_C);
    said.extend(differences(&header, "the header", &rust, "Rust", &[]));
    said.extend(refusals(&header_text, &numbered));
    if said.is_empty() {
        let parameters: usize = header.values().map(|call| call.parameters.len()).sum();
        println!(
            "declarations: {} calls with {parameters} parameters, the same in header, Rust and Rattle; so are the refusals",
            header.len()
        );
    }
    Ok(said)
}

fn main() {
    let words: Vec<String> = env::args().skip(1).collect();
    let [root] = words.as_slice() else {
        eprintln!("usage: declarations ROOT");
        process::exit(2);
    };
    match check(Path::new(root)) {
        Ok(said) if said.is_empty() => {}
        Ok(said) => {
            said.iter()
                .for_each(|line| eprintln!("declarations: {line}"));
            process::exit(1);
        }
        Err(why) => {
            eprintln!("declarations: {why}");
            process::exit(2);
        }
    }
}

#[cfg(test)]
mod tests {
    use super::*;

    const HEADER: &str =
        "uint32_t netbuff_a(size_t bw, const int32_t *hf_mul, size_t hf_mul_length, \
        const uint32_t lengths[4], uint8_t *log, size_t log_length, bool *yes);\n\
        static inline int netbuff_b(int x) { return netbuff_c(x); }\nint32_t netbuff_c(float m);\n";
    const RUST: &str = "extern \"C\" { pub fn netbuff_a(bw: usize, hf_mul: *const i32, \
        hf_mul_length: usize, lengths: &[u32; 4], log: *mut u8, log_length: usize, yes: &mut bool) \
        -> u32; pub fn netbuff_c(m: f32) -> i32; }";
    const RATTLE: &str = "pub extern \"C\" fn netbuff_a<'a>(bw: usize, hf_mul: &'a [u32], \
        lengths: &[u32; 4], log: &mut [u8], yes: &mut bool) -> u32\n ensures { (a, b) } { }\n\
        pub extern \"C\" fn netbuff_c(m: f32) -> i32 { }";

    fn said(header: &str, rust: &str, rattle: &str) -> usize {
        let header = of_header(header).unwrap();
        let (mut r, mut t) = (Calls::new(), Calls::new());
        of_rust(rust, &mut r).unwrap();
        of_rattle(rattle, &mut t).unwrap();
        assert_eq!(header.len(), 2);
        differences(&header, "h", &t, "t", &[]).len()
            + differences(&header, "h", &r, "r", &[]).len()
    }

    fn changed(text: &str, from: &str, to: &str) -> String {
        assert_eq!(text.matches(from).count(), 1, "{from}");
        text.replace(from, to)
    }

    #[test]
    fn the_same() {
        assert_eq!(said(HEADER, RUST, RATTLE), 0);
    }

    #[test]
    fn numbers_of_refusals() {
        let header = "refusal(LENGTH, 1, \"a\", \"0\") refusal(SIZE, 2, \"b\", \"0\")";
        let rattle = "Refusal::Length => said_at(1, 0, 0), Refusal::Size => said_at(2, 0, 0)";
        assert!(refusals(header, rattle).is_empty());
        assert_eq!(refusals(header, &changed(rattle, "said_at(2", "said_at(3")).len(), 2);
        assert_eq!(refusals(&changed(header, ", 2,", ", 1,"), rattle).len(), 1);
        assert_eq!(refusals("", rattle).len(), 1);
    }

    #[test]
    fn header_changed() {
        for (from, to) in [
            ("const int32_t *hf_mul", "const uint32_t *hf_mul"),
            ("const int32_t *hf_mul", "int32_t *hf_mul"),
            ("const int32_t *hf_mul", "const int32_t *mul"),
            ("lengths[4]", "lengths[5]"),
            ("bool *yes", "bool yes"),
            (
                "uint8_t *log, size_t log_length",
                "size_t log_length, uint8_t *log",
            ),
            ("size_t bw", "uint32_t bw"),
            ("uint32_t netbuff_a", "int32_t netbuff_a"),
            ("float m", "uint32_t m"),
        ] {
            assert_eq!(said(&changed(HEADER, from, to), RUST, RATTLE), 2, "{from}");
        }
    }

    #[test]
    fn rust_changed() {
        for (from, to) in [
            ("*const i32", "*const u32"),
            ("*mut u8", "*const u8"),
            ("&[u32; 4]", "&[u32; 3]"),
            ("yes: &mut bool", "yes: bool"),
            ("-> u32", ""),
            ("bw: usize", "wide: usize"),
        ] {
            assert_eq!(said(HEADER, &changed(RUST, from, to), RATTLE), 1, "{from}");
        }
    }

    #[test]
    fn rattle_changed() {
        for (from, to) in [
            ("hf_mul: &'a [u32]", "hf_mul: &'a mut [u32]"),
            ("hf_mul: &'a [u32]", "hf_mul: &'a [u16]"),
            ("&[u32; 4]", "&[u32]"),
            (
                "bw: usize, hf_mul: &'a [u32]",
                "hf_mul: &'a [u32], bw: usize",
            ),
            ("netbuff_c", "netbuff_d"),
        ] {
            assert!(said(HEADER, RUST, &changed(RATTLE, from, to)) > 0, "{from}");
        }
    }
}
