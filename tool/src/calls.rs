//! The library's calls: every call of the tool is made here, with its key.

use crate::table::Records;
use lukhtari::{Dose, Key, Measurement, Refusal, Shape, Table};

// Calls with the rights of one key.
pub struct Calls {
    key: Key,
}

// Those that read and estimate a table for a command that only asks it.
pub const LOADING: Calls = Calls { key: Key::Service };

impl Calls {
    pub fn new(key: Key) -> Calls {
        Calls { key }
    }

    pub fn read(&self, bytes: &[u8], samples: &mut [i32]) -> Result<Table, Refusal> {
        lukhtari::read(self.key, bytes, samples)
    }

    pub fn write(&self, table: &Table, samples: &[i32], out: &mut [u8]) -> Result<usize, Refusal> {
        let Table { axes, counts, .. } = *table;
        lukhtari::write(
            self.key,
            axes,
            counts,
            table.steps,
            table.second_edition,
            samples,
            out,
        )
    }

    pub fn import(&self, shape: Shape, text: &[u8], samples: &mut [i32]) -> Result<(), Refusal> {
        lukhtari::import(self.key, shape, text, samples)
    }

    pub fn pool(&self, a: Measurement, b: Measurement, out: &mut [i32]) -> Result<(), Refusal> {
        lukhtari::pool(self.key, a, b, out)
    }

    pub fn estimate(&self, shape: Shape, samples: &[i32], out: &mut [i32]) -> Result<(), Refusal> {
        lukhtari::estimate(self.key, shape, samples, out)
    }

    pub fn dose(&self, of: &Records, at: [i32; 3]) -> Result<Dose, Refusal> {
        lukhtari::dose(self.key, of.shape, &of.entries, at)
    }

    pub fn dose_in_cell(&self, of: &Records, cell: [u32; 3], u: [u32; 3]) -> Result<Dose, Refusal> {
        lukhtari::dose_in_cell(self.key, of.shape, &of.entries, cell, u)
    }

    pub fn dose_float(&self, of: &Records, at: [f32; 3]) -> Result<f32, Refusal> {
        lukhtari::dose_float(self.key, of.shape, &of.entries, at)
    }

    pub fn slope(&self, of: &Records, at: [i32; 3], axis: u32) -> Result<i32, Refusal> {
        lukhtari::slope(self.key, of.shape, &of.entries, at, axis)
    }

    pub fn slope_in_cell(
        &self,
        of: &Records,
        cell: [u32; 3],
        u: [u32; 3],
        axis: u32,
    ) -> Result<i32, Refusal> {
        lukhtari::slope_in_cell(self.key, of.shape, &of.entries, cell, u, axis)
    }

    pub fn slope_float(&self, of: &Records, at: [f32; 3], axis: u32) -> Result<f32, Refusal> {
        lukhtari::slope_float(self.key, of.shape, &of.entries, at, axis)
    }

    pub fn curvature(&self, of: &Records, at: [i32; 3], axis: u32) -> Result<i32, Refusal> {
        lukhtari::curvature(self.key, of.shape, &of.entries, at, axis)
    }

    pub fn curvature_in_cell(
        &self,
        of: &Records,
        cell: [u32; 3],
        u: [u32; 3],
        axis: u32,
    ) -> Result<i32, Refusal> {
        lukhtari::curvature_in_cell(self.key, of.shape, &of.entries, cell, u, axis)
    }

    pub fn ramp(&self, of: &Records, at: &[[i32; 3]], out: &mut [i32]) -> Result<u64, Refusal> {
        lukhtari::ramp(self.key, of.shape, &of.entries, at, out)
    }

    pub fn coefficients(
        &self,
        of: &Records,
        cell: [u32; 3],
        out: &mut [i32],
    ) -> Result<(), Refusal> {
        lukhtari::coefficients(self.key, of.shape, &of.entries, cell, out)
    }

    pub fn powers(&self, of: &Records, cell: [u32; 3], out: &mut [i32]) -> Result<(), Refusal> {
        lukhtari::powers(self.key, of.shape, &of.entries, cell, out)
    }

    pub fn box_total(&self, of: &Records, first: [u32; 3], last: [u32; 3]) -> Result<i64, Refusal> {
        lukhtari::box_total(self.key, of.shape, &of.entries, first, last)
    }
}
