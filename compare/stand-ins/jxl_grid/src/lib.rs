//! Stand-in for `jxl_grid`: grids row by row, without padding, nothing tracked. A grid with a side of 0
//! has its sides and no cells.

use std::fmt;
use std::ops::Range;

/// A grid that owns its cells.
#[derive(Debug)]
pub struct AlignedGrid<V> {
    width: usize,
    height: usize,
    cells: Vec<V>,
}

impl<V: Default + Clone> AlignedGrid<V> {
    pub fn with_alloc_tracker(
        width: usize,
        height: usize,
        _tracker: Option<&AllocTracker>,
    ) -> Result<Self, OutOfMemory> {
        Ok(Self::of(width, height, vec![V::default(); width * height]))
    }
}

impl<V> AlignedGrid<V> {
    /// A grid of lent cells.
    pub fn of(width: usize, height: usize, cells: Vec<V>) -> Self {
        assert_eq!(cells.len(), width * height);
        Self {
            width,
            height,
            cells,
        }
    }

    pub fn buf(&self) -> &[V] {
        &self.cells
    }

    pub fn buf_mut(&mut self) -> &mut [V] {
        &mut self.cells
    }

    pub fn as_subgrid(&self) -> SharedSubgrid<'_, V> {
        SharedSubgrid::of(self.width, self.height, &self.cells)
    }

    #[inline]
    pub fn try_get_ref(&self, x: usize, y: usize) -> Option<&V> {
        if x < self.width && y < self.height {
            Some(&self.cells[y * self.width + x])
        } else {
            None
        }
    }

    #[inline]
    pub fn get_mut(&mut self, x: usize, y: usize) -> &mut V {
        check_inside(x, y, self.width, self.height);
        &mut self.cells[y * self.width + x]
    }
}

impl<V: Copy> AlignedGrid<V> {
    #[inline]
    pub fn get(&self, x: usize, y: usize) -> V {
        check_inside(x, y, self.width, self.height);
        self.cells[y * self.width + x]
    }
}

/// A view of lent cells: each row begins `stride` cells behind the one before.
#[derive(Debug, Copy, Clone)]
pub struct SharedSubgrid<'a, V> {
    width: usize,
    height: usize,
    stride: usize,
    cells: &'a [V],
}

impl<'a, V> SharedSubgrid<'a, V> {
    pub fn of(width: usize, height: usize, cells: &'a [V]) -> Self {
        assert_eq!(cells.len(), width * height);
        Self {
            width,
            height,
            stride: width,
            cells,
        }
    }

    /// The part of the view that has these columns and rows, of which there are some.
    pub fn subgrid(&self, columns: Range<usize>, rows: Range<usize>) -> SharedSubgrid<'a, V> {
        assert!(columns.start < columns.end && columns.end <= self.width);
        assert!(rows.start < rows.end && rows.end <= self.height);
        SharedSubgrid {
            width: columns.len(),
            height: rows.len(),
            stride: self.stride,
            cells: &self.cells[rows.start * self.stride + columns.start..],
        }
    }

    pub fn width(&self) -> usize {
        self.width
    }

    pub fn height(&self) -> usize {
        self.height
    }
}

impl<V: Copy> SharedSubgrid<'_, V> {
    #[inline]
    pub fn get(&self, x: usize, y: usize) -> V {
        check_inside(x, y, self.width, self.height);
        self.cells[y * self.stride + x]
    }
}

/// A view of lent cells that may be changed.
#[derive(Debug)]
pub struct MutableSubgrid<'a, V> {
    width: usize,
    height: usize,
    cells: &'a mut [V],
}

impl<'a, V> MutableSubgrid<'a, V> {
    pub fn of(width: usize, height: usize, cells: &'a mut [V]) -> Self {
        assert_eq!(cells.len(), width * height);
        Self {
            width,
            height,
            cells,
        }
    }

    #[inline]
    pub fn get_mut(&mut self, x: usize, y: usize) -> &mut V {
        check_inside(x, y, self.width, self.height);
        &mut self.cells[y * self.width + x]
    }
}

#[inline]
fn check_inside(x: usize, y: usize, width: usize, height: usize) {
    assert!(
        x < width && y < height,
        "({x}, {y}) outside {width} x {height}"
    );
}

#[derive(Debug)]
pub struct AllocTracker;

#[derive(Debug)]
pub struct AllocHandle;

impl AllocTracker {
    pub fn alloc<T>(&self, _count: usize) -> Result<AllocHandle, OutOfMemory> {
        Ok(AllocHandle)
    }
}

#[derive(Debug)]
pub struct OutOfMemory;

impl fmt::Display for OutOfMemory {
    fn fmt(&self, f: &mut fmt::Formatter<'_>) -> fmt::Result {
        write!(f, "out of memory")
    }
}

impl std::error::Error for OutOfMemory {}
