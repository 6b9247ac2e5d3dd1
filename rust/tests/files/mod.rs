//! Reading and writing of table files: the calls and what their tests share.

#![allow(dead_code)]

use crate::common::{outcome, plain, shape, Lent, Random};
use crate::model;
use lukhtari::{read, write, Key, Shape};
use model::file::Table;
use model::Answer;

#[derive(Clone, Debug)]
pub struct Read {
    pub bytes: Vec<u8>,
    pub room: usize,
}

#[derive(Clone, Debug)]
pub struct Write {
    pub axes: u32,
    pub counts: [u32; 3],
    pub steps: [u32; 3],
    pub second_edition: bool,
    pub samples: Vec<i32>,
    pub room: usize,
}

// Makes the call, compares answer and buffer with the model's, and returns the table.
pub fn run_read_table(call: &Read) -> Answer<Table> {
    let mut buffer = Lent::new(call.room);
    let got = plain(read(Key::Service, &call.bytes, buffer.slice()));
    let expected = model::file::read(&call.bytes, call.room);
    let told = |table: &Table| lukhtari::Table {
        axes: table.axes,
        counts: table.counts,
        steps: table.steps,
        second_edition: table.second_edition,
    };
    let told = expected.as_ref().map(told).map_err(|refusal| *refusal);
    assert_eq!(got, told, "{:?}", call.bytes);
    let samples = expected.as_ref().map(|table| &table.samples[..]);
    buffer.check(samples.unwrap_or_default());
    expected
}

pub fn run_read(call: &Read) -> Answer<()> {
    outcome(&run_read_table(call))
}

// Makes the call, compares answer and buffer with the model's, and returns the bytes.
pub fn run_write_bytes(call: &Write) -> Answer<Vec<u8>> {
    let mut buffer = Lent::new(call.room);
    let Write {
        axes,
        counts,
        steps,
        ..
    } = *call;
    let (edition, samples) = (call.second_edition, &call.samples);
    let got = plain(write(
        Key::Service,
        axes,
        counts,
        steps,
        edition,
        samples,
        buffer.slice(),
    ));
    let expected = model::file::write(axes, counts, steps, edition, samples, call.room);
    let length = expected.as_ref().map(|bytes| bytes.len());
    assert_eq!(got, length.map_err(|refusal| *refusal), "{call:?}");
    buffer.check(expected.as_deref().unwrap_or_default());
    expected
}

pub fn run_write(call: &Write) -> Answer<()> {
    outcome(&run_write_bytes(call))
}

pub fn words(numbers: &[u32]) -> Vec<u8> {
    numbers.iter().flat_map(|n| n.to_le_bytes()).collect()
}

// A table of an edition and any step numbers with all buffers right for writing.
pub fn table(random: &mut Random, axes: u32, most: i64, second_edition: bool) -> Write {
    let Shape { counts, steps, .. } = random.stepped(axes, 3, most);
    let samples = random.samples(shape(axes, 3, counts).nodes());
    let section = if second_edition { 2 } else { 0 };
    let room = 4 * (2 + axes as usize + samples.len() + section);
    Write {
        axes,
        counts,
        steps,
        second_edition,
        samples,
        room,
    }
}

// A permitted file of an edition, with a buffer of the right length.
pub fn file(random: &mut Random, axes: u32, most: i64, second_edition: bool) -> Read {
    let table = table(random, axes, most, second_edition);
    let bytes = run_write_bytes(&table).expect("permitted table");
    let room = table.samples.len();
    Read { bytes, room }
}

// A number of axes with each edition.
pub const FILES: [(u32, bool); 6] = [
    (1, false),
    (2, false),
    (3, false),
    (1, true),
    (2, true),
    (3, true),
];

// The file of the samples 0, 100, in numbers, and its third section in edition two.
pub const EXAMPLE: [u32; 5] = [1, 2, 2, 0, 100];
pub const SECTION: [u32; 2] = [1, 2];
