/// Takes a number apart by mixed radices, to count through all combinations of choices.
pub struct Digits {
    left: usize,
}

impl Digits {
    pub fn of(number: usize) -> Self {
        Self { left: number }
    }

    pub fn next(&mut self, radix: usize) -> usize {
        let digit = self.left % radix;
        self.left /= radix;
        digit
    }

    pub fn pick<T: Clone>(&mut self, choices: &[T]) -> T {
        choices[self.next(choices.len())].clone()
    }

    /// A list of up to `most` choices; there are `lists_count` of them.
    pub fn list<T: Clone>(&mut self, choices: &[T], most: usize) -> Vec<T> {
        let mut number = self.next(lists_count(choices.len(), most));
        let mut length = 0;
        let mut lists = 1;
        while number >= lists {
            number -= lists;
            lists *= choices.len();
            length += 1;
        }
        let mut digits = Digits::of(number);
        (0..length).map(|_| digits.pick(choices)).collect()
    }
}

pub fn lists_count(choices: usize, most: usize) -> usize {
    (0..=most).map(|length| choices.pow(length as u32)).sum()
}
