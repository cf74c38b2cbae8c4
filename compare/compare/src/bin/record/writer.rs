use calls::{Answer, Refusal};

const PATTERN_FACTOR: u32 = 0x9E37_79B1;
const PATTERN_OFFSET: u32 = 0x0123_4567;
const DIGEST_FACTOR: u32 = 16_777_619;

/// A number of 1, 2 or 4 bytes.
pub trait Element: Copy {
    /// The pattern of its bits.
    fn pattern(self) -> u32;
}

macro_rules! element {
    ($($kind:ty),*) => {$(
        impl Element for $kind {
            fn pattern(self) -> u32 {
                self as u32
            }
        }
    )*};
}

element!(u8, u16, u32, i32);

impl Element for f32 {
    fn pattern(self) -> u32 {
        self.to_bits()
    }
}

/// The entries of a cluster map that is not worth writing out.
pub fn patterned(length: usize) -> Vec<u8> {
    let entry = |i: usize| {
        let number = PATTERN_FACTOR
            .wrapping_mul(i as u32)
            .wrapping_add(PATTERN_OFFSET);
        (number / 256) as u8
    };
    (0..length).map(entry).collect()
}

/// The body of a record.
#[derive(Default)]
pub struct Body {
    pub numbers: Vec<u32>,
}

impl Body {
    pub fn number(&mut self, number: u32) {
        self.numbers.push(number);
    }

    pub fn numbers(&mut self, numbers: impl IntoIterator<Item = u32>) {
        self.numbers.extend(numbers);
    }

    /// A length, position or count, all of which are small here.
    pub fn size(&mut self, size: usize) {
        self.number(u32::try_from(size).expect("a small number"));
    }

    pub fn sizes(&mut self, sizes: impl IntoIterator<Item = usize>) {
        sizes.into_iter().for_each(|size| self.size(size));
    }

    pub fn list<E: Element>(&mut self, list: &[E]) {
        self.sizes([list.len(), list.len()]);
        self.numbers(list.iter().map(|element| element.pattern()));
    }

    pub fn bytes(&mut self, bytes: &[u8]) {
        self.sizes([bytes.len().div_ceil(4), bytes.len()]);
        self.numbers(bytes.chunks(4).map(|four| {
            let mut number = [0; 4];
            number[..four.len()].copy_from_slice(four);
            u32::from_le_bytes(number)
        }));
    }

    pub fn digest<E: Element>(&mut self, list: &[E]) {
        let next = |h: u32, element: &E| {
            h.wrapping_mul(DIGEST_FACTOR)
                .wrapping_add(element.pattern())
        };
        self.number(list.iter().fold(0, next));
    }

    pub fn answer<T>(&mut self, answer: &Answer<T>) {
        let Refusal { number, x, y } = match answer {
            Ok(_) => Refusal::plain(0),
            Err(refusal) => *refusal,
        };
        self.number(number);
        self.sizes([x, y]);
    }
}
