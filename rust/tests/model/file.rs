//! The table file.

use super::shape::*;

#[derive(Clone, Debug, PartialEq, Eq)]
pub struct Table {
    pub axes: u32,
    pub counts: [u32; 3],
    pub steps: [u32; 3],
    pub second_edition: bool,
    pub samples: Vec<i32>,
}

// Reads numbers of 4 bytes, lowest first.
struct Reader<'a> {
    bytes: &'a [u8],
    at: usize,
}

impl Reader<'_> {
    // The next number, or 6 if it is incomplete.
    fn number(&mut self) -> Answer<u32> {
        let length = self.bytes.len();
        refuse_unless(self.at + 4 <= length, 6, length)?;
        let four = &self.bytes[self.at..self.at + 4];
        self.at += 4;
        Ok(four.iter().rev().fold(0, |n, &byte| n << 8 | byte as u32))
    }
}

// The third section: its count and its number.
const SECTION: [u32; 2] = [1, 2];

// The reading call: in byte order 6, 1, 3, 8, 6, then 6 and 25 of the third section, 7; then 9, 5,
// else the table, with the step number 256 on each used axis.
pub fn read(bytes: &[u8], room: usize) -> Answer<Table> {
    let mut reader = Reader { bytes, at: 0 };
    let axes = reader.number()?;
    check_axes(axes)?;
    let mut counts = [1; 3];
    for axis in 0..axes as usize {
        counts[axis] = reader.number()?;
        check_count(axes, axis, counts[axis])?;
    }
    let nodes: u32 = counts.iter().product();
    refuse_unless(reader.number()? == nodes, 8, 0)?;
    let mut samples = Vec::new();
    for _ in 0..nodes {
        samples.push(reader.number()? as i32);
    }
    // A file that ends here is of edition one.
    let second_edition = reader.at < bytes.len();
    if second_edition {
        let section = [reader.number()?, reader.number()?];
        refuse_unless(section == SECTION, 25, 0)?;
    }
    refuse_unless(reader.at == bytes.len(), 7, reader.at)?;
    check_room(room, samples.len())?;
    check_samples(&samples)?;
    Ok(Table {
        axes,
        counts,
        steps: finest_steps(axes),
        second_edition,
        samples,
    })
}

// The writing call: 1, 3, 26, 4, 9, 5, else the file's bytes, which hold no step numbers.
pub fn write(
    axes: u32,
    counts: [u32; 3],
    steps: [u32; 3],
    second_edition: bool,
    samples: &[i32],
    room: usize,
) -> Answer<Vec<u8>> {
    check_axes(axes)?;
    check_counts(axes, counts)?;
    check_steps(axes, steps)?;
    let nodes: u32 = counts.iter().product();
    check_length(samples.len(), nodes as usize)?;
    let mut numbers = vec![axes];
    numbers.extend(&counts[..axes as usize]);
    numbers.push(nodes);
    numbers.extend(samples.iter().map(|&sample| sample as u32));
    if second_edition {
        numbers.extend(SECTION);
    }
    check_room(room, 4 * numbers.len())?;
    check_samples(samples)?;
    Ok(numbers.iter().flat_map(|n| n.to_le_bytes()).collect())
}
