/// Where some numbers lie.
#[derive(Debug, Copy, Clone, PartialEq)]
pub struct Spread {
    pub least: f64,
    pub median: f64,
    pub largest: f64,
}

impl Spread {
    /// None where there are no numbers. Of an even count, the median is the middle of the two in
    /// the middle.
    pub fn of(numbers: impl IntoIterator<Item = f64>) -> Option<Self> {
        let mut sorted: Vec<f64> = numbers.into_iter().collect();
        sorted.sort_by(f64::total_cmp);
        let (&least, &largest) = (sorted.first()?, sorted.last()?);
        let below = sorted[(sorted.len() - 1) / 2];
        let above = sorted[sorted.len() / 2];
        Some(Self {
            least,
            median: below + (above - below) / 2.0,
            largest,
        })
    }
}

#[cfg(test)]
mod tests {
    use super::*;

    fn spread(numbers: &[f64]) -> Option<(f64, f64, f64)> {
        let spread = Spread::of(numbers.iter().copied())?;
        Some((spread.least, spread.median, spread.largest))
    }

    #[test]
    fn the_median_is_the_one_in_the_middle() {
        assert_eq!(spread(&[3.0]), Some((3.0, 3.0, 3.0)));
        assert_eq!(spread(&[9.0, 1.0, 2.0]), Some((1.0, 2.0, 9.0)));
        assert_eq!(
            spread(&[5.0, 1.0, 100.0, 4.0, 2.0]),
            Some((1.0, 4.0, 100.0))
        );
    }

    #[test]
    fn of_an_even_count_it_lies_between_two() {
        assert_eq!(spread(&[4.0, 1.0]), Some((1.0, 2.5, 4.0)));
        assert_eq!(spread(&[8.0, 1.0, 3.0, 2.0]), Some((1.0, 2.5, 8.0)));
    }

    #[test]
    fn no_numbers_have_none() {
        assert_eq!(spread(&[]), None);
    }
}
