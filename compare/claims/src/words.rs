//! Words of a text of antt, and which of them it binds itself.

use std::collections::BTreeSet;

/// Words and brackets of a text, a name with the dot behind it apart: `(a b : C)`, `λ x . y`. What
/// begins with a dot, a field, is one word. Comments must be gone.
pub fn words(text: &str) -> Vec<&str> {
    let mut found = Vec::new();
    for part in text.split(char::is_whitespace) {
        let mut rest = part;
        while let Some(first) = rest.chars().next() {
            let end = match rest.find(is_mark) {
                Some(0) => first.len_utf8(),
                Some(place) => place,
                None => rest.len(),
            };
            let (word, behind) = rest.split_at(end);
            rest = behind;
            match word.strip_suffix('.') {
                Some(word) if !word.is_empty() => found.extend([word, "."]),
                _ => found.push(word),
            }
        }
    }
    found
}

/// Words of the language itself.
const KEPT: &[&str] = &[
    "_",
    "module",
    "where",
    "let",
    "in",
    "record",
    "data",
    "pub",
    "unfolding",
    "refl",
    "requires",
    "ensures",
    "result",
    "self",
    "Type",
    "×",
    "⊥",
    "Unit",
    "tt",
];

fn is_mark(c: char) -> bool {
    "(){}[],;λ⌜⌝«»⟦⟧".contains(c)
}

fn is_word(word: &str) -> bool {
    !word.chars().all(is_mark) && !matches!(word, ":" | "=" | "." | "→")
}

/// A word without the fields that are taken of it: of `b.low`, `b`.
fn base(word: &str) -> &str {
    word.split_once('.').map_or(word, |(base, _)| base)
}

/// Names that a text binds: `(a b : C)` and `{a b : C}`, `λ a b.`, `let a`, and a field or a part,
/// `a : C`.
pub fn bound<'a>(words: &[&'a str]) -> BTreeSet<&'a str> {
    let mut names = BTreeSet::new();
    for (place, &word) in words.iter().enumerate() {
        let behind = &words[place + 1..];
        let few = behind.iter().take_while(|word| is_word(word)).count();
        match (word, behind.get(few)) {
            ("(" | "{", Some(&":")) | ("λ", Some(&".")) => names.extend(&behind[..few]),
            ("let", _) => names.extend(behind.first()),
            _ => (),
        }
        if behind.first() == Some(&":") {
            names.insert(word);
        }
    }
    names
}

/// The words of a text that name what stands elsewhere: neither bound, nor a number, nor a field that
/// a record sets (`{ a = ..; b = .. }`), nor a name of the code (`«a_b»`).
pub fn cited<'a>(words: &[&'a str], bound: &BTreeSet<&str>) -> Vec<&'a str> {
    let sets = |place: usize| {
        let behind = words.get(place + 1);
        let before = place.checked_sub(1).map(|place| words[place]);
        behind == Some(&"=") && matches!(before, Some("{" | ";"))
    };
    let of_code = |place: usize| place > 0 && words[place - 1] == "«";
    let free = |&(place, word): &(usize, &&str)| {
        is_word(word)
            && !KEPT.contains(&base(word))
            && !word.starts_with('.')
            && !word.starts_with(|c: char| c.is_ascii_digit())
            && !of_code(place)
            && !bound.contains(base(word))
            && !sets(place)
    };
    words
        .iter()
        .enumerate()
        .filter(free)
        .map(|(_, &word)| word)
        .collect()
}

#[cfg(test)]
mod tests {
    use super::*;

    fn cites(text: &str) -> Vec<&str> {
        let words = words(text);
        cited(&words, &bound(&words))
    }

    #[test]
    fn marks_are_words_by_themselves() {
        assert_eq!(
            words("(a b) ∷ [c,d]"),
            ["(", "a", "b", ")", "∷", "[", "c", ",", "d", "]"]
        );
        assert_eq!(words("λ x. m.y .z"), ["λ", "x", ".", "m.y", ".z"]);
        assert_eq!(words("result ≡ f «s».new")[..3], ["result", "≡", "f"]);
    }

    #[test]
    fn what_is_bound_is_not_cited() {
        assert_eq!(cites("(a b : C) {d : E} → F a d"), ["C", "E", "F"]);
        assert_eq!(cites("λ x y. f x (λ (z : C). z)"), ["f", "C"]);
        assert_eq!(cites("let e : C = d in f e"), ["C", "d", "f"]);
    }

    #[test]
    fn fields_are_not_cited() {
        assert_eq!(cites("(g o).kinds"), ["g", "o"]);
        assert_eq!(cites("λ o. o.kinds p.x result.y"), ["p.x"]);
        assert_eq!(cites("record { a = b; c = a }"), ["b", "a"]);
    }
}
