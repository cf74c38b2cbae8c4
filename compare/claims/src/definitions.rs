//! The names that a source defines, as its lines begin: what is only imported, called or told of in
//! a comment is not among them.

/// Functions, structs, enums and constants of a Rattle source (.rt), those of an `impl` too.
pub fn of_code(source: &str) -> Vec<&str> {
    let names = source.lines().filter_map(|line| {
        let line = line.trim_start();
        let line = without(line, &["pub ", "pub(crate) "]);
        let line = without(line, &["extern \"C\" "]);
        let (kind, rest) = line.split_once(' ')?;
        let defines = matches!(kind, "fn" | "struct" | "enum" | "const" | "static");
        defines.then(|| first_name(rest))?
    });
    names.collect()
}

/// Definitions, laws, data and records of a file of definitions (.antt). Of what stands further in
/// only public members of a module: no fields, no constructors, nothing that a proof names for
/// itself.
pub fn of_definitions(source: &str) -> Vec<&str> {
    // How far in the modules stand that are open; their members stand two places further in.
    let mut modules = Vec::new();
    let names = source.lines().filter_map(|line| {
        let (depth, line) = (line.len() - line.trim_start().len(), line.trim_start());
        if line.is_empty() || line.starts_with("--") {
            return None;
        }
        modules.retain(|&module| module < depth);
        let member = modules.last().is_some_and(|module| depth == module + 2);
        if line.starts_with("module ") {
            modules.push(depth);
        }
        let line = without(line, &["abbrev ", "unfoldable "]);
        let rest = without(line, &["pub "]);
        let public = rest.len() < line.len();
        if depth > 0 && !(member && public) {
            return None;
        }
        match rest.split_once(' ')? {
            ("data" | "record", rest) => first_name(rest),
            (word, rest) => first_name(word).filter(|&name| name == word && rest.starts_with(": ")),
        }
    });
    names.collect()
}

pub fn part_of_name(c: char) -> bool {
    c.is_alphanumeric() || c == '_' || c == '-'
}

/// The line behind the first of these words, where it begins with one.
pub fn without<'a>(line: &'a str, words: &[&str]) -> &'a str {
    let mut rests = words.iter().filter_map(|word| line.strip_prefix(word));
    rests.next().unwrap_or(line)
}

/// The name that a line begins with; a comment's `--` is none.
fn first_name(line: &str) -> Option<&str> {
    let name = line.split(|c| !part_of_name(c)).next()?;
    name.starts_with(char::is_alphanumeric).then_some(name)
}

#[cfg(test)]
mod tests {
    use super::*;

    #[test]
    fn code_defines_what_it_declares() {
        let source = "pub fn f<'a>(x: &'a u8) -> u8\n{\n    g(x)\n}\npub(crate) fn h()\n\
                      pub extern \"C\" fn i()\nconst J: u8 = 1;\n\
                      pub struct K {\n    pub l: u8,\n}\n\
                      pub enum M {\n    N(u8),\n}\nimpl M {\n    pub const O: u8 = 2;\n}\n";
        assert_eq!(of_code(source), ["f", "h", "i", "J", "K", "M", "O"]);
    }

    #[test]
    fn code_does_not_define_what_it_uses() {
        let source = "// fn a\nuse b::c;\nghost use d.E.{f, g};\nmod h;\nlet i = j(k);\n";
        assert!(of_code(source).is_empty());
    }

    #[test]
    fn definitions_are_headed_by_a_name_or_a_kind() {
        let source = "pub a-b : X\na-b x = y\nabbrev pub c : X → Y\nunfoldable pub d : X\n\
                      abbrev e : X\nf : X\npub data G : Type 0 where\n  H : G\n\
                      pub record I (x : X) : Type 0 where\n  pub j : X\n\
                      module _ (x : X) where\n  -- text\n\n  pub k : X\n  m : X\n\
                      \x20 abbrev pub l : X\n  pub record N : Type 0 where\n    pub o : X\n\
                      \x20 module _ (y : X) where\n    pub p : X\n  pub q : X\n";
        assert_eq!(
            of_definitions(source),
            ["a-b", "c", "d", "e", "f", "G", "I", "k", "l", "N", "p", "q"]
        );
    }

    #[test]
    fn imports_comments_and_proofs_define_nothing() {
        let source = "-- a : X\n-- : b\nuse C.{d, e}\npub use F.{g}\npub mod H\nunfolding i\n\
                      j x = let k : X = y in k\n  where\n    go : X\n    pub l : X\n";
        assert!(of_definitions(source).is_empty());
    }
}
