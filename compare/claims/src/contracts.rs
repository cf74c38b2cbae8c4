use std::collections::BTreeSet;

use crate::words::{bound, cited, words};

/// A function of a Rattle source.
pub struct Function<'a> {
    pub name: &'a str,
    pub public: bool,
    /// Exported to C.
    pub exported: bool,
    /// What the impl says of it by a ghost member, where it does.
    given: Option<&'a str>,
    /// Its heading's lines.
    head: Vec<&'a str>,
}

/// The functions of a source, those of an `impl` too. One of a trait of the library, whose promise the
/// impl gives, is public.
pub fn functions(source: &str) -> Vec<Function<'_>> {
    let mut found = Vec::new();
    let mut last = None;
    let mut lines = source.lines().map(str::trim);
    while let Some(line) = lines.next() {
        last = gives(line).or(last);
        let Some((name, public)) = begins(line) else {
            continue;
        };
        let given = last.take().filter(|(of, _)| *of == name);
        let given = given.map(|(_, promise)| promise);
        let mut head = vec![line];
        while !opens_body(head[head.len() - 1]) {
            head.extend(lines.next());
        }
        found.push(Function {
            name,
            public: public || given.is_some(),
            exported: line.starts_with("pub extern "),
            given,
            head,
        });
    }
    found
}

impl<'a> Function<'a> {
    fn has(&self, clause: &str) -> bool {
        self.head.iter().any(|line| line.starts_with(clause))
    }

    /// What its contract cites: parameters, of types too, and what the contract binds are not among it.
    pub fn cites(&self) -> Vec<&'a str> {
        let clause = |line: &&str| line.starts_with("requires") || line.starts_with("ensures");
        let start = self.head.iter().position(clause).unwrap_or(self.head.len());
        let parameters = self.head[..start]
            .iter()
            .flat_map(|line| line.split(['(', ',', '<']));
        let parameters = parameters.filter_map(|part| part.split_once(':'));
        let mut taken: BTreeSet<_> = parameters.map(|(name, _)| name.trim()).collect();
        let promises = self.head[start..].iter().map(|line| unnamed(line));
        let clauses: Vec<_> = promises.chain(self.given).flat_map(words).collect();
        taken.extend(bound(&clauses));
        cited(&clauses, &taken)
    }
}

/// What is wrong with the public functions of a source: each has an `ensures` or is given one, none has
/// a `requires`.
pub fn faults(source: &str) -> Vec<String> {
    let mut faults = Vec::new();
    for function in functions(source).iter().filter(|function| function.public) {
        let name = function.name;
        if function.has("requires") {
            faults.push(format!("{name} is public and has a `requires`"));
        }
        if !function.has("ensures") && function.given.is_none() {
            faults.push(format!("{name} is public and has no `ensures`"));
        }
    }
    faults
}

/// The function whose heading begins here, and whether it is public.
pub fn begins(line: &str) -> Option<(&str, bool)> {
    let public = line.strip_prefix("pub ");
    let rest = public.or(line.strip_prefix("pub(crate) ")).unwrap_or(line);
    let rest = rest.strip_prefix("extern \"C\" ").unwrap_or(rest);
    let name = rest.strip_prefix("fn ")?.split(['(', '<']).next()?;
    Some((name, public.is_some()))
}

/// The function of which an impl says here by a ghost member what it promises, and the promise:
/// `ghost try_from_gives = { .. };`.
pub fn gives(line: &str) -> Option<(&str, &str)> {
    let (member, promise) = line.strip_prefix("ghost ")?.split_once(" = ")?;
    Some((member.strip_suffix("_gives")?, promise))
}

/// A line of a contract from its clause's bracket on: a clause may have a name, `ensures NAME { .. }`.
fn unnamed(line: &str) -> &str {
    let clause = line.starts_with("requires ") || line.starts_with("ensures ");
    let place = line.find('{').filter(|_| clause);
    place.map_or(line, |place| &line[place..])
}

/// A clause that goes on over lines opens no body.
fn opens_body(line: &str) -> bool {
    line.ends_with('{') && !line.starts_with("requires") && !line.starts_with("ensures")
}

#[cfg(test)]
mod tests {
    use super::*;

    #[test]
    fn public_functions_promise_and_ask_nothing() {
        let asks = "pub fn f(x: u8)\n    requires { A }\n    ensures { B }\n{\n}\n";
        assert_eq!(faults(asks), ["f is public and has a `requires`"]);
        let silent = "pub extern \"C\" fn g<'a>(\n    x: &'a u8,\n) -> u8 {\n    1\n}\n";
        assert_eq!(faults(silent), ["g is public and has no `ensures`"]);
    }

    #[test]
    fn others_may_ask() {
        let kept = "pub(crate) fn f()\n    requires { A }\n{\n}\nfn g() {\n}\n";
        assert!(faults(kept).is_empty());
        assert!(faults("pub fn h()\n    ensures { A }\n{\n}\n").is_empty());
    }

    #[test]
    fn an_impl_gives_a_promise() {
        let source = "impl TryFrom<u32> for T {\n    ghost try_from_gives = { λ n found. answered found ≡ look_up n };\n\n    \
                      fn try_from(n: u32) -> Result<Self, R> {\n        g(n)\n    }\n\n    fn other() {\n    }\n}\n";
        let found = functions(source);
        let told: Vec<_> = found
            .iter()
            .map(|found| (found.name, found.public))
            .collect();
        assert_eq!(told, [("try_from", true), ("other", false)]);
        assert_eq!(found[0].cites(), ["answered", "≡", "look_up"]);
        assert!(faults(source).is_empty());
        let silent = source.replace("try_from_gives", "gives_nothing");
        assert!(!functions(&silent)[0].public);
    }

    #[test]
    fn a_contract_cites_no_parameter() {
        let source =
            "fn f(kinds: &[u8], n: usize) -> u8\n    requires { length kinds.now ≡ n }\n    \
                      ensures low { Put kinds.new result n }\n    ensures high { low n }\n{\n    \
                      g(n)\n}\n";
        let found = functions(source);
        assert_eq!((found[0].name, found[0].public), ("f", false));
        assert_eq!(found[0].cites(), ["length", "≡", "Put", "low"]);
        let lines = "fn f()\n    ensures {\n        A\n    }\n{\n    B\n}\n";
        assert_eq!(functions(lines)[0].cites(), ["A"]);
    }
}
