//! Shapes, records, limits and the refusals that concern them.

// Sample limit; an entry of total order q may be 2^q times as large.
pub const LIMIT: i64 = 32768;

#[derive(Clone, Copy, Debug, PartialEq, Eq)]
pub struct Shape {
    pub axes: u32,
    pub degree: u32,
    pub counts: [u32; 3],
    pub steps: [u32; 3],
    pub second_edition: bool,
}

#[derive(Clone, Copy, Debug, PartialEq, Eq)]
pub struct Refusal {
    pub number: u32,
    pub place: u64,
}

pub type Answer<T> = Result<T, Refusal>;

// Refuses with the number and place unless the test holds.
pub fn refuse_unless(test: bool, number: u32, place: usize) -> Answer<()> {
    let place = place as u64;
    test.then_some(()).ok_or(Refusal { number, place })
}

impl Shape {
    // A shape of edition one with 256 steps on each used axis.
    pub fn new(axes: u32, degree: u32, counts: [u32; 3]) -> Shape {
        Shape {
            axes,
            degree,
            counts,
            steps: finest_steps(axes),
            second_edition: false,
        }
    }

    // The same shape in an edition.
    pub fn in_edition(self, second_edition: bool) -> Shape {
        Shape {
            second_edition,
            ..self
        }
    }

    // The same shape with other step numbers.
    pub fn in_steps(self, steps: [u32; 3]) -> Shape {
        Shape { steps, ..self }
    }

    // The step number of an axis.
    pub fn steps_on(&self, axis: usize) -> i64 {
        self.steps[axis] as i64
    }

    pub fn used(&self) -> usize {
        self.axes as usize
    }

    // Node counts as sides of an index range.
    pub fn sides(&self) -> [usize; 3] {
        self.counts.map(|count| count as usize)
    }

    pub fn nodes(&self) -> usize {
        self.sides().iter().product()
    }

    // m: orders held along an axis.
    pub fn orders(&self) -> usize {
        orders(self.degree)
    }

    // Entries in a record, m^n.
    pub fn record(&self) -> usize {
        self.orders().pow(self.axes)
    }

    // Entries in all records.
    pub fn entries(&self) -> usize {
        self.nodes() * self.record()
    }

    pub fn node_number(&self, [i, j, k]: [usize; 3]) -> usize {
        let [cx, cy, _] = self.sides();
        i + cx * (j + cy * k)
    }

    // Index of a node's entry in the slice of all records.
    pub fn entry_index(&self, node: [usize; 3], orders: [usize; 3]) -> usize {
        self.node_number(node) * self.record() + entry_number(self.degree, orders)
    }

    // Orders of a record's entries, by number.
    pub fn record_orders(&self) -> Vec<[usize; 3]> {
        record_orders(self.axes, self.degree)
    }
}

pub fn orders(degree: u32) -> usize {
    match degree {
        3 => 2,
        5 => 3,
        _ => panic!("degree {degree}"),
    }
}

pub fn entry_number(degree: u32, [a, b, c]: [usize; 3]) -> usize {
    let m = orders(degree);
    a + m * (b + m * c)
}

pub fn record_orders(axes: u32, degree: u32) -> Vec<[usize; 3]> {
    indices(used_sides(axes, orders(degree)))
}

// The side on used axes, 1 on unused ones.
pub fn used_sides(axes: u32, side: usize) -> [usize; 3] {
    [0, 1, 2].map(|axis| if axis < axes { side } else { 1 })
}

// All index triples within the sides, x fastest.
pub fn indices(sides: [usize; 3]) -> Vec<[usize; 3]> {
    let mut all = Vec::with_capacity(sides.iter().product());
    for z in 0..sides[2] {
        for y in 0..sides[1] {
            for x in 0..sides[0] {
                all.push([x, y, z]);
            }
        }
    }
    all
}

pub fn entry_limit(orders: [usize; 3]) -> i64 {
    let total: usize = orders.iter().sum();
    LIMIT << total
}

// 1
pub fn check_axes(axes: u32) -> Answer<()> {
    refuse_unless((1..=3).contains(&axes), 1, 0)
}

// 2
pub fn check_degree(degree: u32) -> Answer<()> {
    refuse_unless(degree == 3 || degree == 5, 2, 0)
}

// 3 for one axis
pub fn check_count(axes: u32, axis: usize, count: u32) -> Answer<()> {
    let used = axis < axes as usize;
    let allowed = if used { 2..=64 } else { 1..=1 };
    refuse_unless(allowed.contains(&count), 3, axis)
}

// 3
pub fn check_counts(axes: u32, counts: [u32; 3]) -> Answer<()> {
    (0..3).try_for_each(|axis| check_count(axes, axis, counts[axis]))
}

// The step numbers that a used axis may have.
pub const STEP_NUMBERS: [u32; 5] = [16, 32, 64, 128, 256];

// 256 on each used axis, 1 on unused ones: what reading a file gives.
pub fn finest_steps(axes: u32) -> [u32; 3] {
    [0, 1, 2].map(|axis| if axis < axes { 256 } else { 1 })
}

// 26
pub fn check_steps(axes: u32, steps: [u32; 3]) -> Answer<()> {
    (0..3).try_for_each(|axis| {
        let allowed: &[u32] = match axis < axes as usize {
            true => &STEP_NUMBERS,
            false => &[1],
        };
        refuse_unless(allowed.contains(&steps[axis]), 26, axis)
    })
}

// 1, 2, 3, 26
pub fn check_shape(shape: &Shape) -> Answer<()> {
    check_axes(shape.axes)?;
    check_degree(shape.degree)?;
    check_counts(shape.axes, shape.counts)?;
    check_steps(shape.axes, shape.steps)
}

// 4
pub fn check_length(lent: usize, wanted: usize) -> Answer<()> {
    refuse_unless(lent == wanted, 4, 0)
}

// 9
pub fn check_room(room: usize, needed: usize) -> Answer<()> {
    refuse_unless(room >= needed, 9, 0)
}

// 5 for samples
pub fn check_samples(samples: &[i32]) -> Answer<()> {
    let beyond = |&sample: &i32| (sample as i64).abs() > LIMIT;
    match samples.iter().position(beyond) {
        Some(index) => refuse_unless(false, 5, index),
        None => Ok(()),
    }
}
