//! The layout call behind its checks before work: columns placed block by block (document 01, Layout
//! and filter strength), their types taken whole (document 02, No. 5).

use calls::{LayoutBuffers, LayoutCall, Outcome, Refusal};

use crate::record::{FIRST_CORNER_KIND, GROUP_SIDE, KIND_FREE, KIND_OCCUPIED};
use crate::transform_sides;

/// The layout call with every type that 32 bits can hold, of lengths and numbers that fit.
pub fn layout(call: &LayoutCall) -> Outcome<usize, LayoutBuffers> {
    let (bw, bh) = crate::grid_sides(call.width, call.height, call.modes);
    let mut placing = Placing {
        call,
        bw,
        bh,
        used: 0,
        filled: LayoutBuffers::zeros(bw * bh),
    };
    for y in 0..bh {
        for x in 0..bw {
            if placing.filled.kinds[y * bw + x] != KIND_FREE {
                continue;
            }
            if let Err(number) = placing.place(x, y) {
                return Outcome {
                    answer: Err(Refusal { number, x, y }),
                    buffers: LayoutBuffers::zeros(bw * bh),
                };
            }
        }
    }
    Outcome {
        answer: Ok(placing.used),
        buffers: placing.filled,
    }
}

struct Placing<'a> {
    call: &'a LayoutCall,
    bw: usize,
    bh: usize,
    used: usize,
    filled: LayoutBuffers,
}

impl Placing<'_> {
    /// Places the next column's varblock at a free block, or tells the number of its refusal.
    fn place(&mut self, x: usize, y: usize) -> Result<(), u32> {
        let &number = self.call.types.get(self.used).ok_or(4_u32)?;
        let (wide, high) = transform_sides(number).ok_or(5_u32)?;
        let hf_mul = self.call.muls[self.used].wrapping_add(1);
        if hf_mul < 1 {
            return Err(6);
        }
        if x % GROUP_SIDE + wide > GROUP_SIDE || y % GROUP_SIDE + high > GROUP_SIDE {
            return Err(7);
        }
        for row in y..y + high {
            for column in x..x + wide {
                self.take(column, row, hf_mul)?;
            }
        }
        self.filled.kinds[y * self.bw + x] = FIRST_CORNER_KIND + number as u8;
        self.filled.hf_mul[y * self.bw + x] = hf_mul;
        self.used += 1;
        Ok(())
    }

    /// Takes one block of a varblock's rectangle.
    fn take(&mut self, x: usize, y: usize, hf_mul: i32) -> Result<(), u32> {
        if x >= self.bw || y >= self.bh {
            return Err(9);
        }
        let block = y * self.bw + x;
        if self.filled.kinds[block] != KIND_FREE {
            return Err(8);
        }
        self.filled.kinds[block] = KIND_OCCUPIED;
        if let Some(multiplier) = self.call.filter {
            let sharpness = usize::try_from(self.call.sharpness[block]).map_err(|_| 10_u32)?;
            let lookup = self.call.lookup.get(sharpness).ok_or(10_u32)?;
            self.filled.sigma[block] =
                multiplier * 65536.0 / self.call.scale as f32 / hf_mul as f32 * lookup;
        }
        Ok(())
    }
}
