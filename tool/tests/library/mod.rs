//! The library's own answers, for comparison with the command's.

#![allow(dead_code)]

use lukhtari::{Dose, Key, Refusal, Shape};

const KEY: Key = Key::Service;

// A table with its records in a degree.
pub struct Library {
    pub shape: Shape,
    pub samples: Vec<i32>,
    pub records: Vec<i32>,
}

impl Library {
    pub fn new(file: &[u8], degree: u32) -> Library {
        let mut samples = vec![0; file.len() / 4];
        let table = lukhtari::read(KEY, file, &mut samples).expect("a table");
        samples.truncate(table.nodes());
        let shape = table.shape(degree);
        let mut records = vec![0; shape.entries()];
        lukhtari::estimate(KEY, shape, &samples, &mut records).expect("estimated");
        Library {
            shape,
            samples,
            records,
        }
    }

    pub fn dose(&self, at: [i32; 3]) -> Result<Dose, Refusal> {
        lukhtari::dose(KEY, self.shape, &self.records, at)
    }

    pub fn slope(&self, at: [i32; 3], axis: u32) -> Result<i32, Refusal> {
        lukhtari::slope(KEY, self.shape, &self.records, at, axis)
    }

    pub fn curvature(&self, at: [i32; 3], axis: u32) -> Result<i32, Refusal> {
        lukhtari::curvature(KEY, self.shape, &self.records, at, axis)
    }
}
