//! What a reader believes stands apart from what is proved: `specs/` of a crate has definitions that
//! a promise rests on and nothing else, `specs/laws/` and `proofs/` all else. The reading list of
//! docs/ARCHITECTURE.md has the crates whose definitions are believed.

use std::collections::{BTreeMap, BTreeSet};

use crate::library::{Believed, Library};
use crate::specs::{path_of, Named, Place};

/// The list: subjects with their crates.
pub type List<'a> = Vec<(&'a str, Vec<&'a str>)>;

/// Subjects beside the calls and the theorems on them.
const BESIDE: [&str; 4] = [
    "marked examples",
    "lister",
    "C interface",
    "recorded answers",
];

/// Reads the list from its page: the table below the line that begins so, subject and crates.
pub fn read_list(page: &str) -> List<'_> {
    let lines = page
        .lines()
        .skip_while(|line| !line.starts_with("To believe the calls"));
    let lines = lines.skip_while(|line| !line.starts_with('|')).skip(2);
    lines.map_while(row).collect()
}

fn row(line: &str) -> Option<(&str, Vec<&str>)> {
    let (subject, crates) = line.strip_prefix('|')?.split_once('|')?;
    let names = crates.trim_end().strip_suffix('|')?.split(',');
    let names = names.map(|name| name.trim().trim_matches('`'));
    Some((subject.trim(), names.collect()))
}

/// Whether a crate is one of a subject beside the calls.
pub fn beside(list: &List, name: &str) -> bool {
    let mut subjects = list.iter().filter(|(_, crates)| crates.contains(&name));
    subjects.any(|(subject, _)| BESIDE.contains(subject))
}

/// How much there is to read.
#[derive(Default, Debug, PartialEq)]
pub struct Size {
    crates: usize,
    files: usize,
    definitions: usize,
    /// Lines of definitions.
    lines: usize,
    /// Lines of their files, comments and imports too.
    whole: usize,
    /// Types of the code.
    types: usize,
}

impl std::fmt::Display for Size {
    fn fmt(&self, to: &mut std::fmt::Formatter) -> std::fmt::Result {
        write!(
            to,
            "{} crates, {} files, {} definitions, {} lines of them, {} lines of the files whole, \
             {} types of the code",
            self.crates, self.files, self.definitions, self.lines, self.whole, self.types
        )
    }
}

/// The size of what is believed.
pub fn size(library: &Library, believed: &Believed) -> Size {
    size_in(library, believed, |_| true)
}

fn size_in(library: &Library, believed: &Believed, in_crate: impl Fn(&str) -> bool) -> Size {
    let mut size = Size::default();
    let (mut crates, mut files) = (BTreeSet::new(), BTreeSet::new());
    for place in believed
        .definitions
        .keys()
        .filter(|it| in_crate(&it.file.0))
    {
        let lines = library.declaration(place).lines;
        size.definitions += usize::from(lines > 0);
        size.lines += lines;
        crates.insert(&place.file.0);
        files.insert(&place.file);
    }
    size.crates = crates.len();
    size.files = files.len();
    size.whole = files.iter().map(|file| library.files[*file].lines).sum();
    size.types = believed.types.iter().filter(|it| in_crate(&it.0)).count();
    size
}

/// The size of each subject.
pub fn by_subject(library: &Library, list: &List, believed: &Believed) -> Vec<String> {
    let told = |(subject, crates): &(&str, Vec<&str>)| {
        let size = size_in(library, believed, |name| crates.contains(&name));
        format!("{subject}: {size}")
    };
    list.iter().map(told).collect()
}

/// What the list lacks, what it has that is not to be read, and what it has twice.
pub fn unlisted(list: &List, believed: &Believed) -> Vec<String> {
    let mut read: BTreeMap<&str, (&Place, &str)> = BTreeMap::new();
    for (place, by) in &believed.definitions {
        read.entry(&place.file.0).or_insert((place, by));
    }
    let mut faults = Vec::new();
    let mut listed = BTreeSet::new();
    for name in list.iter().flat_map(|(_, crates)| crates) {
        if !listed.insert(*name) {
            faults.push(format!("the reading list has {name} twice"));
        } else if !read.contains_key(name) {
            faults.push(format!(
                "the reading list has {name}, and no promise rests on it"
            ));
        }
    }
    let lacking = read.iter().filter(|(name, _)| !listed.contains(*name));
    faults.extend(lacking.map(|(name, (place, by))| {
        format!("the reading list lacks {name} ({place}, cited by {by})")
    }));
    faults
}

/// A declaration that stands in the wrong file, and why.
pub struct Misplaced {
    place: Place,
    why: Why,
}

#[derive(Clone, Copy, PartialEq)]
enum Why {
    Law,
    Unbelieved,
    Believed,
}

impl std::fmt::Display for Misplaced {
    fn fmt(&self, to: &mut std::fmt::Formatter) -> std::fmt::Result {
        let why = match self.why {
            Why::Law => "is a law among the definitions",
            Why::Unbelieved => "is a definition that no promise rests on",
            Why::Believed => "is a definition that a promise rests on, among the laws",
        };
        write!(to, "{} {why}", self.place)
    }
}

/// Names that two files declare among what one crate's exported functions rest on, with the files.
pub fn homonyms(library: &Library) -> BTreeSet<String> {
    let mut found = BTreeSet::new();
    for exporting in library.exporting() {
        let believed = library.believed(&[], &[], |name| name == exporting);
        let mut files: BTreeMap<&str, Vec<String>> = BTreeMap::new();
        for place in believed.definitions.keys() {
            files
                .entry(&place.name)
                .or_default()
                .push(path_of(&place.file));
        }
        let twice = files.into_iter().filter(|(_, files)| files.len() > 1);
        found.extend(twice.map(|(name, files)| format!("`{name}`: {}", files.join(", "))));
    }
    found
}

/// How many stand in the wrong file, crate by crate.
pub fn by_crate(misplaced: &[Misplaced]) -> Vec<String> {
    let mut crates: BTreeMap<&str, [usize; 3]> = BTreeMap::new();
    for found in misplaced {
        crates.entry(&found.place.file.0).or_default()[found.why as usize] += 1;
    }
    let told = |(name, [laws, unbelieved, believed]): (&str, [usize; 3])| {
        format!(
            "apart: {name}: {laws} laws and {unbelieved} definitions that no promise rests on in \
             specs/, {believed} believed in specs/laws/"
        )
    };
    crates.into_iter().map(told).collect()
}

/// Every declaration that stands in the wrong file.
pub fn misplaced(library: &Library, believed: &Believed) -> Vec<Misplaced> {
    let mut found = Vec::new();
    for (file, read) in &library.files {
        for (name, declared) in &read.declared {
            let (file, name) = (file.clone(), name.clone());
            let place = Place { file, name };
            let why = match (declared.defines, believed.definitions.contains_key(&place)) {
                // A constructor goes with its data.
                _ if declared.lines == 0 => None,
                (_, true) => of_laws(&place.file).then_some(Why::Believed),
                (defines, false) if !of_laws(&place.file) => Some(match defines {
                    true => Why::Unbelieved,
                    false => Why::Law,
                }),
                _ => None,
            };
            found.extend(why.map(|why| Misplaced { place, why }));
        }
    }
    found
}

fn of_laws((_, file): &Named) -> bool {
    file.contains('/')
}

#[cfg(test)]
mod tests {
    use super::*;
    use crate::library::Name;

    fn library() -> Library {
        let mut library = Library::default();
        library.add_definitions(
            "grid",
            "Walk",
            "use Rattle.std.specs.Prelude.{◌≡◌, ℕ}\nabbrev pub rows : ℕ\nrows = cells\nunfoldable pub cells : ℕ\ncells = 1\n\
             pub law : rows ≡ cells\nlaw = refl\nabbrev pub unused : ℕ\nunused = rows\n\
             abbrev pub lost : ℕ\nlost = nowhere\n",
        );
        library.add_definitions(
            "call",
            "laws/Call",
            "use Rattle.std.specs.Prelude.{◌≡◌, ℕ}\nuse Rattle.grid.specs.Walk.{rows}\n\
             pub use Rattle.grid.specs.Walk.{cells}\n\
             abbrev pub outcome : ℕ\noutcome = rows\npub theorem : (x : ℕ) → Given x ≡ cells\n\
             theorem = by outcome\npub record Given (x : ℕ) : Type 0 where\n  pub y : ℕ\n",
        );
        library.add_code(
            "call",
            "ghost use Rattle.std.specs.Prelude.{◌≡◌};\nghost use Rattle.call.specs.laws.Call.{outcome};\n\
             pub fn read()\n    ensures { result ≡ outcome }\n{\n}\n\
             pub fn inner()\n    ensures { result ≡ gone }\n{\n}\n\
             ghost use Rattle.grid.specs.Walk.{lost, law};\n\
             pub fn loses()\n    ensures { result ≡ lost }\n{\n}\n\
             pub fn proves()\n    ensures { result ≡ law }\n{\n}\n",
        );
        library
    }

    const READ: (&str, &str) = ("call", "read");

    fn told(calls: &[Name], named: &[Name]) -> Vec<String> {
        let library = library();
        let believed = library.believed(calls, named, |_| true);
        let found = misplaced(&library, &believed);
        let mut told: Vec<_> = found.iter().map(Misplaced::to_string).collect();
        told.extend(believed.faults);
        told
    }

    #[test]
    fn the_believed_and_the_proved_stand_apart() {
        let laws = "crates/call/specs/laws/Call.antt:";
        let walk = "crates/grid/specs/Walk.antt:";
        let believed = "is a definition that a promise rests on, among the laws";
        let unbelieved = "is a definition that no promise rests on";
        let law = "is a law among the definitions";
        // the call rests on `outcome`, and through it on `rows` and `cells`
        assert_eq!(
            told(&[READ], &[]),
            [
                format!("{laws} `outcome` {believed}"),
                format!("{walk} `law` {law}"),
                format!("{walk} `lost` {unbelieved}"),
                format!("{walk} `unused` {unbelieved}"),
            ]
        );
        // a theorem rests on what its statement cites, and not on its proof; a definition that is
        // named is no promise
        let named = [("call", "theorem"), ("grid", "unused")];
        assert_eq!(
            told(&[], &named),
            [
                format!("{laws} `Given` {believed}"),
                format!("{walk} `law` {law}"),
                format!("{walk} `lost` {unbelieved}"),
                format!("{walk} `rows` {unbelieved}"),
                format!("{walk} `unused` {unbelieved}"),
            ]
        );
    }

    #[test]
    fn a_statement_under_its_name_is_the_theorems() {
        let told = |theorem: &str| {
            let mut library = Library::default();
            let laws = "use Rattle.std.specs.Prelude.{ℕ, ◌≡◌}\nuse Rattle.call.specs.Call.{f}\n\
                        abbrev pub JobFirst : ℕ → Type 0\nJobFirst x = f x ≡ x\n";
            library.add_definitions("call", "laws/Job", laws);
            let proofs = format!(
                "use Rattle.std.specs.Prelude.{{ℕ}}\nuse Rattle.call.specs.laws.Job.{{JobFirst}}\n\
                 pub {theorem} : (x : ℕ) → JobFirst x\n{theorem} x = refl\n"
            );
            library.add_definitions("call", "proofs/laws/Job", &proofs);
            let call = "use Rattle.std.specs.Prelude.{ℕ}\nabbrev pub f : ℕ → ℕ\nf x = x\n";
            library.add_definitions("call", "Call", call);
            let believed = library.believed(&[], &[("call", theorem)], |_| true);
            assert!(believed.faults.is_empty());
            let found = misplaced(&library, &believed);
            let told = found.iter().map(Misplaced::to_string).collect::<Vec<_>>();
            (believed.definitions.len(), told)
        };
        assert_eq!(told("job_first"), (1, vec![]));
        // of another theorem it is a definition
        let believed =
            "crates/call/specs/laws/Job.antt: `JobFirst` is a definition that a promise \
                        rests on, among the laws";
        assert_eq!(told("job_last"), (2, vec![believed.to_string()]));
    }

    #[test]
    fn what_is_cited_is_there() {
        let faults = |calls: &[Name]| library().believed(calls, &[], |_| true).faults;
        assert!(faults(&[READ]).is_empty());
        let gone = "crates/call: the contract of `inner` cites `gone`, which is nowhere declared";
        assert_eq!(faults(&[("call", "inner")]).first().unwrap(), gone);
        let lost = "crates/grid/specs/Walk.antt: `lost` cites `nowhere`, which is nowhere declared";
        assert_eq!(faults(&[("call", "loses")]).first().unwrap(), lost);
        let law =
            "crates/call: the contract of `proves` cites crates/grid/specs/Walk.antt: `law`, \
                   which is a law";
        assert_eq!(faults(&[("call", "proves")]).first().unwrap(), law);
    }

    #[test]
    fn a_constructor_goes_with_its_data() {
        let mut library = Library::default();
        let data = "pub data Answer : Type 0 where\n  yes : Answer\nabbrev pub f : ℕ\nf = yes\n\
             pub law : f ≡ yes\nlaw = refl\nuse a.B.{ℕ, ◌≡◌}\n";
        library.add_definitions("call", "laws/Call", data);
        let believed = library.believed(&[], &[("call", "law")], |_| true);
        assert!(believed.faults.is_empty());
        assert_eq!(believed.definitions.len(), 3);
        assert_eq!(misplaced(&library, &believed).len(), 2);
        let read = size(&library, &believed);
        let expected = Size {
            crates: 1,
            files: 1,
            definitions: 2,
            lines: 4,
            whole: 7,
            types: 0,
        };
        assert_eq!(read, expected);
    }

    #[test]
    fn a_name_of_two_files_is_told() {
        let mut library = library();
        library.add_definitions(
            "two",
            "Walk",
            "use a.B.{ℕ}\nabbrev pub rows : ℕ\nrows = 1\n",
        );
        let code = |file: &str| {
            format!(
                "ghost use Rattle.grid.specs.Walk.{{rows}};\nghost use Rattle.{file}.{{rows as more}};\n\
                 pub extern \"C\" fn f()\n    ensures {{ rows more }}\n{{\n}}\n"
            )
        };
        library.add_code("one", &code("grid.specs.Walk"));
        assert!(homonyms(&library).is_empty());
        library.add_code("one", &code("two.specs.Walk"));
        let told = "`rows`: crates/grid/specs/Walk.antt, crates/two/specs/Walk.antt";
        assert_eq!(homonyms(&library).first().unwrap(), told);
    }

    #[test]
    fn the_list_has_the_crates_that_are_read() {
        let faults = |crates: &str| {
            let page = format!("To believe the calls\n\n| A | B |\n|--|--|\n| all | {crates} |\n");
            let believed = library().believed(&[READ], &[], |_| true);
            unlisted(&read_list(&page), &believed)
        };
        assert!(faults("grid, `call`").is_empty());
        let lacks = "the reading list lacks grid (crates/grid/specs/Walk.antt: `cells`, cited by \
                     crates/grid/specs/Walk.antt: `rows`)";
        assert_eq!(faults("call"), [lacks]);
        let more = "the reading list has zeros, and no promise rests on it";
        assert_eq!(faults("grid, call, zeros"), [more]);
        assert_eq!(
            faults("grid, call, grid"),
            ["the reading list has grid twice"]
        );
    }
}
