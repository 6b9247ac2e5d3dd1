//! Shapes of the finest steps, and sizes that follow from a shape.

use crate::limits::STEPS_MAX;
use crate::Shape;

impl Shape {
    /// A shape of edition one with 256 steps on each used axis, 1 on unused ones.
    ///
    /// ```
    /// use lukhtari::Shape;
    /// let shape = Shape::new(2, 5, [4, 3, 1]);
    /// assert_eq!((shape.axes, shape.degree, shape.counts), (2, 5, [4, 3, 1]));
    /// assert_eq!((shape.steps, shape.second_edition), ([256, 256, 1], false));
    /// let coarse = Shape { steps: [256, 16, 1], ..shape };
    /// assert_eq!(coarse.entries(), shape.entries());
    /// ```
    pub const fn new(axes: u32, degree: u32, counts: [u32; 3]) -> Shape {
        Shape {
            axes,
            degree,
            counts,
            steps: Shape::finest_steps(axes),
            second_edition: false,
        }
    }

    /// The step numbers of a table of so many axes that is read from a file: 256 on each used axis, 1 on
    /// unused ones.
    ///
    /// ```
    /// use lukhtari::Shape;
    /// assert_eq!(Shape::finest_steps(2), [256, 256, 1]);
    /// ```
    pub const fn finest_steps(axes: u32) -> [u32; 3] {
        match axes {
            0 => [1, 1, 1],
            1 => [STEPS_MAX, 1, 1],
            2 => [STEPS_MAX, STEPS_MAX, 1],
            _ => [STEPS_MAX; 3],
        }
    }

    /// Number of nodes, and so of samples.
    pub fn nodes(&self) -> usize {
        let size = |nodes: usize, &count: &u32| nodes.saturating_mul(count as usize);
        self.counts.iter().fold(1, size)
    }

    /// Number of entries in all records.
    ///
    /// ```
    /// use lukhtari::Shape;
    /// let shape = Shape::new(2, 5, [4, 3, 1]);
    /// assert_eq!(shape.nodes(), 12);
    /// assert_eq!(shape.entries(), 12 * 9);
    /// assert_eq!(shape.coefficients(), 36);
    /// assert_eq!(shape.file_bytes(), 4 * (2 + 2 + 12));
    /// let second = Shape { second_edition: true, ..shape };
    /// assert_eq!(second.file_bytes(), 4 * (2 + 2 + 12) + 8);
    /// ```
    pub fn entries(&self) -> usize {
        let orders = self.degree as usize / 2 + 1;
        self.nodes()
            .saturating_mul(orders.saturating_pow(self.axes))
    }

    /// Number of coefficients of a cell, and of entries of its corner records.
    pub fn coefficients(&self) -> usize {
        let side = (self.degree as usize).saturating_add(1);
        side.saturating_pow(self.axes)
    }

    /// Number of bytes of the table's file.
    pub fn file_bytes(&self) -> usize {
        let section = if self.second_edition { 2 } else { 0 };
        let numbers = (self.axes as usize).saturating_add(2 + section);
        numbers.saturating_add(self.nodes()).saturating_mul(4)
    }
}
