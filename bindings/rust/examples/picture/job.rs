use netbuff::{Columns, LayoutInput, LfGroup};

/// A job of the layout lister: a size and columns, with the filter off and modes 0.
pub struct Job {
    pub group: LfGroup,
    types: Vec<i32>,
    muls: Vec<i32>,
    sharpness: Vec<i32>,
}

impl Job {
    /// Little-endian, after a hexadecimal command byte each: 10 width, height (16 bits), then 11
    /// type, mul (32 bits) for each column, then 00. What follows is not looked at.
    pub fn read(bytes: &[u8]) -> Result<Self, String> {
        let ended = || String::from("the job ends within a record");
        let (&[command, w0, w1, h0, h1], mut rest) = bytes.split_first_chunk().ok_or_else(ended)?;
        if command != 0x10 {
            return Err(format!("a job begins with 10, and not with {command:02x}"));
        }
        let side = |bytes| u32::from(u16::from_le_bytes(bytes));
        let group = LfGroup::new(side([w0, w1]), side([h0, h1]));
        let (mut types, mut muls) = (Vec::new(), Vec::new());
        loop {
            let (&command, behind) = rest.split_first().ok_or_else(ended)?;
            match command {
                0x00 => break,
                0x11 => {
                    let (&[t0, t1, t2, t3, m0, m1, m2, m3], behind) =
                        behind.split_first_chunk().ok_or_else(ended)?;
                    types.push(i32::from_le_bytes([t0, t1, t2, t3]));
                    muls.push(i32::from_le_bytes([m0, m1, m2, m3]));
                    rest = behind;
                }
                _ => return Err(format!("no command of a column or end: {command:02x}")),
            }
        }
        Ok(Self {
            group,
            types,
            muls,
            sharpness: vec![0; group.sides().blocks()],
        })
    }

    pub fn input(&self) -> LayoutInput<'_> {
        let columns = Columns {
            types: &self.types,
            muls: &self.muls,
        };
        LayoutInput::unfiltered(self.group, columns, &self.sharpness)
    }
}

#[cfg(test)]
mod tests {
    use super::*;

    const START: [u8; 5] = [0x10, 16, 0, 8, 1];

    fn read(parts: &[&[u8]]) -> Result<Job, String> {
        Job::read(&parts.concat())
    }

    #[test]
    fn jobs_are_read() {
        let column = [0x11, 6, 0, 0, 0, 0xff, 0xff, 0xff, 0xff];
        let job = read(&[&START, &column, &[0, 99]]).expect("a job");
        assert_eq!((job.group.width, job.group.height), (16, 264));
        assert_eq!((job.types, job.muls), (vec![6], vec![-1]));
    }

    #[test]
    fn bad_jobs_are_refused() {
        let wrong: [&[&[u8]]; 5] = [
            &[],
            &[&START],
            &[&START, &[0x12]],
            &[&START, &[0x11, 0]],
            &[&[0x11, 0, 0, 0, 0]],
        ];
        assert!(wrong.iter().all(|parts| read(parts).is_err()));
    }
}
