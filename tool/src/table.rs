//! A table that was read, and its records in a degree.

use crate::calls::Calls;
use crate::failure::Failure;
use crate::{files, refusals};
use lukhtari::limits::FILE_BYTES_MAX;
use lukhtari::{Refusal, Shape};

pub struct Table {
    pub name: String,
    pub form: lukhtari::Table,
    pub samples: Vec<i32>,
}

// Estimated records with their shape.
pub struct Records {
    pub shape: Shape,
    pub entries: Vec<i32>,
}

impl Table {
    // Reads a table file.
    pub fn read(calls: &Calls, path: &str) -> Result<Table, Failure> {
        let bytes = files::read(path, FILE_BYTES_MAX + 1)?;
        let name = files::name(path);
        // A file has more bytes than four for each sample.
        let mut samples = vec![0; bytes.len() / 4];
        let form = calls
            .read(&bytes, &mut samples)
            .map_err(|refusal| refusals::of_file(&name, refusal, &bytes))?;
        samples.truncate(form.nodes());
        Ok(Table {
            name,
            form,
            samples,
        })
    }

    // The bytes of the table's file.
    pub fn bytes(&self, calls: &Calls) -> Result<Vec<u8>, Failure> {
        let mut bytes = vec![0; self.form.shape(3).file_bytes()];
        let length = calls
            .write(&self.form, &self.samples, &mut bytes)
            .map_err(|refusal| refusals::of_samples(self, refusal))?;
        bytes.truncate(length);
        Ok(bytes)
    }

    pub fn axes(&self) -> usize {
        self.form.axes as usize
    }

    // The last cell index of each axis.
    pub fn last_cell(&self) -> [u32; 3] {
        self.form.counts.map(|count| count.saturating_sub(2))
    }

    // The indices of a node.
    pub fn node(&self, number: usize) -> [u32; 3] {
        indices(self.form.counts, number)
    }

    pub fn sample(&self, node: [u32; 3]) -> i32 {
        let [cx, cy, _] = self.form.counts;
        self.samples[(node[0] + cx * (node[1] + cy * node[2])) as usize]
    }

    // The table's records in a degree, or the library's refusal.
    pub fn estimate(&self, calls: &Calls, degree: u32) -> Result<Records, Refusal> {
        let shape = self.form.shape(degree);
        let mut entries = vec![0; shape.entries()];
        calls.estimate(shape, &self.samples, &mut entries)?;
        Ok(Records { shape, entries })
    }

    pub fn records(&self, calls: &Calls, degree: u32) -> Result<Records, Failure> {
        let estimated = self.estimate(calls, degree);
        estimated.map_err(|refusal| refusals::of_samples(self, refusal))
    }
}

// The indices that a number stands for, x fastest.
pub fn indices(sides: [u32; 3], number: usize) -> [u32; 3] {
    let (x, y) = (sides[0] as usize, sides[1] as usize);
    [number % x, number / x % y, number / x / y].map(|index| index as u32)
}
