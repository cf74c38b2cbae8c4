use crate::definitions::part_of_name;

/// A row of the page: its name, what is promised, and the test.
pub struct Row<'a> {
    pub name: &'a str,
    pub promise: &'a str,
    pub test: &'a str,
}

impl<'a> Row<'a> {
    /// The rows of a page's tables, but for their heads; and the numbers of those lines of tables
    /// that have not four cells. A table begins with a line that has a bar, and ends at an empty
    /// one.
    pub fn read_all(page: &'a str) -> (Vec<Self>, Vec<usize>) {
        let (mut rows, mut others) = (Vec::new(), Vec::new());
        let mut in_table = false;
        for (line, number) in page.lines().zip(1..) {
            in_table = !line.trim().is_empty() && (in_table || line.contains('|'));
            match cells(line) {
                Some(cells) => rows.extend(Self::of(cells)),
                None if in_table => others.push(number),
                None => (),
            }
        }
        (rows, others)
    }

    /// None for a head.
    fn of([name, _, promise, test]: [&'a str; 4]) -> Option<Self> {
        let head = name.starts_with("--") || name == "Row";
        (!head).then_some(Self {
            name,
            promise,
            test,
        })
    }

    /// Whether the row says that it is no promise of the code, or none yet, or made by other rows.
    pub fn promises(&self) -> bool {
        !NO_PROMISE.iter().any(|word| self.promise.starts_with(word))
    }
}

/// How the promise begins of a row that has none of its own.
const NO_PROMISE: [&str; 3] = ["not a promise", "a run, not a proof", "other rows"];

/// The four cells of a line, which begins and ends with a bar.
fn cells(line: &str) -> Option<[&str; 4]> {
    let inside = line.trim_end().strip_prefix('|')?.strip_suffix('|')?;
    let cells: Vec<_> = inside.split('|').map(str::trim).collect();
    cells.try_into().ok()
}

/// The calls that the page lists, crate and function: the lines of its part "The calls".
pub fn calls(page: &str, opens: impl Fn(&str) -> bool) -> Vec<(&str, &str)> {
    let part = page.lines().skip_while(|line| *line != "## The calls");
    let part = part.skip(1).take_while(|line| !line.starts_with("## "));
    let listed = part.filter(|line| line.starts_with("- "));
    listed.flat_map(|line| names(line, &opens)).collect()
}

/// Names in backquotes, each with the last word before it that is an opener.
pub fn names(cell: &str, opens: impl Fn(&str) -> bool) -> Vec<(&str, &str)> {
    let mut found = Vec::new();
    let mut opener = None;
    for (place, part) in cell.split('`').enumerate() {
        if place % 2 == 0 {
            let words = part.split(|c: char| !c.is_alphanumeric() && c != '_');
            opener = words.filter(|word| opens(word)).last().or(opener);
        } else if let Some(opener) = opener.filter(|_| is_name(part)) {
            found.push((opener, part));
        }
    }
    found
}

pub fn is_name(word: &str) -> bool {
    word.chars().all(part_of_name)
}

#[cfg(test)]
mod tests {
    use super::*;

    #[test]
    fn calls_are_listed() {
        let page = "a `b`\n## The calls\ntext `c`\n- d: e `f`, `g`; h `i`\n\n## More\n- e `j`\n";
        let found = calls(page, |word| word == "e" || word == "h");
        assert_eq!(found, [("e", "f"), ("e", "g"), ("h", "i")]);
    }

    #[test]
    fn rows_are_read_and_heads_are_not() {
        let page = "text\n\n| Row | Sentence | Promise | Test |\n|--|--|--|--|\n\
                    | a-1 | b | c `d` | f |\n| a-2 | b | not a promise of the code: c | |\n\ntext\n";
        let (rows, others) = Row::read_all(page);
        let row = |row: &Row<'static>| (row.name, row.promise, row.test);
        assert_eq!(row(&rows[0]), ("a-1", "c `d`", "f"));
        assert_eq!(rows.len(), 2);
        assert!(rows[0].promises() && !rows[1].promises());
        assert!(others.is_empty());
    }

    #[test]
    fn a_line_of_a_table_has_four_cells() {
        let others = |page| Row::read_all(page).1;
        let torn = "| a | b | c | d |\n| a | b | c |\n| a | b | c | d | e |\n";
        assert_eq!(others(torn), [2, 3]);
        assert_eq!(others("text\n\n| a | b | c | d"), [3]);
        assert_eq!(others("a | b | c | d |"), [1]);
        assert_eq!(others("| a | b | c | d |\ntext"), [2]);
        assert!(others("| a | b |  | |\n\ntext").is_empty());
    }

    #[test]
    fn names_belong_to_the_crate_before_them() {
        let opens = |word: &str| word == "bits" || word == "layout";
        let found = names("no `x`; bits `a`, `b-c`; layout `d e`, `f`", opens);
        assert_eq!(found, [("bits", "a"), ("bits", "b-c"), ("layout", "f")]);
    }
}
