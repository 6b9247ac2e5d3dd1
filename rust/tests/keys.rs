//! Keys: every call with every key, over arguments that are right and over each kind of fault.

use lukhtari::ffi::*;
use lukhtari::{Key, Measurement, Refusal};
use std::collections::BTreeSet;
use std::ptr::NonNull;

#[derive(Clone, Copy, Debug, PartialEq, Eq)]
enum Call {
    Dose,
    DoseInCell,
    DoseFloat,
    Slope,
    SlopeInCell,
    SlopeFloat,
    Ramp,
    Read,
    Write,
    Import,
    Estimate,
    Pool,
    Coefficients,
    Corners,
    Powers,
    Curvature,
    CurvatureInCell,
    CellTotal,
    BoxTotal,
}

use Call::*;

// Document 02: the calls of the operator, those that the colourist has besides, and all others,
// each with the numbers that it gives where the key holds the right.
const OPERATOR: &[(Call, &[u32])] = &[
    (Dose, &[0, 1, 2, 3, 26, 4, 23, 22, 11, 5]),
    (DoseInCell, &[0, 1, 2, 3, 26, 4, 14, 23, 11, 5]),
    (DoseFloat, &[0, 1, 2, 3, 26, 4, 10, 23, 22, 11, 5]),
    (Slope, &[0, 1, 2, 3, 26, 4, 12, 23, 22, 11, 5]),
    (SlopeInCell, &[0, 1, 2, 3, 26, 4, 12, 14, 23, 11, 5]),
    (SlopeFloat, &[0, 1, 2, 3, 26, 4, 12, 10, 23, 22, 11, 5]),
    (Ramp, &[0, 1, 2, 3, 26, 20, 4, 9, 23, 22, 11, 5]),
];
const COLOURIST: &[(Call, &[u32])] = &[
    (Read, &[0, 6, 1, 3, 8, 25, 7, 9, 5]),
    (Write, &[0, 1, 3, 26, 4, 9, 5]),
    (Import, &[0, 1, 2, 3, 26, 4, 9, 16, 17, 18, 5]),
    (Estimate, &[0, 1, 2, 3, 26, 4, 9, 19]),
    (Pool, &[0, 1, 2, 3, 26, 27, 28, 4, 9, 5]),
];
const SERVICE: &[(Call, &[u32])] = &[
    (Coefficients, &[0, 1, 2, 3, 26, 4, 9, 14, 5]),
    (Corners, &[0, 1, 2, 15, 9, 13]),
    (Powers, &[0, 1, 2, 3, 26, 24, 4, 9, 14, 5]),
    (Curvature, &[0, 1, 2, 3, 26, 4, 12, 21, 23, 22, 11, 5]),
    (CurvatureInCell, &[0, 1, 2, 3, 26, 4, 12, 21, 14, 23, 11, 5]),
    (CellTotal, &[0, 1, 2, 3, 26, 4, 14, 5]),
    (BoxTotal, &[0, 1, 2, 3, 26, 4, 29, 5]),
];

// Each call with the keys that hold its right and the numbers that it gives.
fn calls() -> Vec<(Call, &'static [u32], &'static [u32])> {
    let with = |rows: &[(Call, &'static [u32])], keys: &'static [u32]| {
        let row = |&(call, numbers): &(Call, &'static [u32])| (call, keys, numbers);
        rows.iter().map(row).collect::<Vec<_>>()
    };
    let all = [
        with(OPERATOR, &[1, 2, 3]),
        with(COLOURIST, &[2, 3]),
        with(SERVICE, &[3]),
    ];
    all.concat()
}

const KEYS: [u32; 6] = [0, 1, 2, 3, 4, u32::MAX];

// The arguments of all calls; each uses those that concern it.
#[derive(Clone)]
struct Arguments {
    shape: Shape,
    other: Shape,
    records: Vec<i32>,
    samples: Vec<i32>,
    file: Vec<u8>,
    text: Vec<u8>,
    coefficients: Vec<i32>,
    position: [i32; 3],
    list: Vec<i32>,
    float: [f32; 3],
    cell: [u32; 3],
    last: [u32; 3],
    u: [u32; 3],
    axis: u32,
    weights: [u32; 2],
    room: usize,
}

fn file(numbers: &[i32]) -> Vec<u8> {
    numbers.iter().flat_map(|n| n.to_le_bytes()).collect()
}

// Arguments that the call takes: a table of 3 by 3 nodes, quintic where curvatures are asked for.
fn taken(call: Call) -> Arguments {
    let degree = match call {
        Curvature | CurvatureInCell => 5,
        _ => 3,
    };
    let shape = Shape::new(2, degree, [3, 3, 1]);
    let samples: Vec<i32> = (0..9).map(|node| node * node - 10).collect();
    let mut records = vec![0; shape.entries()];
    lukhtari::estimate(Key::Service, shape, &samples, &mut records).expect("records");
    let mut coefficients = vec![0; shape.coefficients()];
    lukhtari::coefficients(Key::Service, shape, &records, [0; 3], &mut coefficients)
        .expect("coefficients");
    Arguments {
        shape,
        other: shape,
        records,
        file: file(&[&[2, 3, 3, 9], &samples[..]].concat()),
        samples,
        text: b"0 1 2 3 4 5 6 7 8".to_vec(),
        coefficients,
        position: [64, 65, 0],
        list: vec![64, 65, 0, 300, 301, 0],
        float: [0.25, 0.5, 0.0],
        cell: [0; 3],
        last: [1, 1, 0],
        u: [3, 200, 0],
        axis: 1,
        weights: [3, 1],
        room: 300,
    }
}

// A change of the arguments that some calls refuse.
type Fault = fn(&mut Arguments);

const FAULTS: &[Fault] = &[
    |a| a.shape.axes = 0,
    |a| a.file[0] = 4,
    |a| a.shape.degree = 4,
    |a| a.shape.counts[0] = 65,
    |a| a.file[4] = 65,
    |a| a.shape.steps[0] = 48,
    |a| a.shape.axes = 3,
    |a| {
        a.shape = Shape::new(3, 3, [3, 3, 2]);
        a.records.resize(a.shape.entries(), 0);
    },
    |a| {
        a.records.pop();
        a.samples.pop();
        a.text.truncate(16);
    },
    |a| a.room = 1,
    |a| a.list.truncate(5),
    |a| a.axis = 2,
    |a| {
        a.shape.degree = 3;
        a.records.resize(a.shape.entries(), 0);
    },
    |a| a.cell[1] = 2,
    |a| a.last[0] = 2,
    |a| a.float[0] = f32::NAN,
    |a| {
        a.position[2] = 1;
        a.list[2] = 1;
        a.float[2] = 1.0;
        a.u[2] = 1;
    },
    |a| {
        a.position[0] = -1;
        a.list[0] = -1;
        a.float[0] = -1.0;
    },
    |a| {
        a.position[1] = 513;
        a.list[1] = 513;
        a.float[1] = 2.5;
        a.u[1] = 257;
    },
    |a| {
        a.records[0] = 32769;
        a.samples[0] = 32769;
        a.text[0..2].copy_from_slice(b"1e");
        a.text.splice(2..2, *b"3 ");
        a.file[16..20].copy_from_slice(&32769_i32.to_le_bytes());
    },
    |a| a.coefficients[0] += 1,
    |a| {
        a.coefficients.pop();
    },
    |a| a.other.degree = 8 - a.other.degree,
    |a| a.weights = [0, 0],
    |a| a.weights[1] = 10_001,
    |a| {
        a.text.splice(0..1, [b'1'; 65]);
    },
    |a| a.text[0] = b'.',
    |a| {
        a.text.splice(0..1, *b"0.001");
    },
    |a| {
        a.file.pop();
    },
    |a| a.file[12] = 8,
    |a| a.file.extend([0; 8]),
    |a| a.file.extend([1, 0, 0, 0, 2, 0, 0, 0, 0]),
];

// Arguments as the interface takes them; the slices may be at no place.
struct Raw<'a> {
    arguments: &'a Arguments,
    records: (*const i32, usize),
    samples: (*const i32, usize),
    list: (*const i32, usize),
    coefficients: (*const i32, usize),
    file: (*const u8, usize),
    text: (*const u8, usize),
    out: (*mut i32, usize),
    bytes: (*mut u8, usize),
}

// All members of a result but number and place, as bits.
struct Reply {
    number: u32,
    place: u64,
    rest: Vec<u64>,
}

macro_rules! reply {
    ($result:expr $(, $field:ident)*) => {{
        // SAFETY: the slices are lent, or the call reads and writes nothing.
        let result = unsafe { $result };
        let rest = vec![$(result.$field as u64),*];
        Reply { number: result.number, place: result.place, rest }
    }};
}

// The call with this key.
fn answered(call: Call, key: u32, raw: &Raw) -> Reply {
    match call {
        Dose | Slope | Curvature => by_position(call, key, raw),
        DoseFloat | SlopeFloat => by_float(call, key, raw),
        DoseInCell | SlopeInCell | CurvatureInCell | CellTotal | BoxTotal => {
            by_cell(call, key, raw)
        }
        Ramp | Coefficients | Corners | Powers => from_records(call, key, raw),
        Read => read(key, raw),
        Write | Import | Estimate | Pool => from_samples(call, key, raw),
    }
}

fn by_position(call: Call, key: u32, raw: &Raw) -> Reply {
    let Arguments { shape, axis, .. } = *raw.arguments;
    let (at, length) = raw.records;
    let position = Position {
        at: raw.arguments.position,
    };
    match call {
        Dose => reply!(
            lukhtari_dose(key, shape, at, length, position),
            value,
            exact
        ),
        Slope => reply!(
            lukhtari_slope(key, shape, at, length, position, axis),
            value
        ),
        _ => reply!(
            lukhtari_curvature(key, shape, at, length, position, axis),
            value
        ),
    }
}

fn by_cell(call: Call, key: u32, raw: &Raw) -> Reply {
    let Arguments { shape, axis, .. } = *raw.arguments;
    let (at, length) = raw.records;
    let Arguments { cell, u, last, .. } = *raw.arguments;
    let [cell, u, last] = [cell, u, last].map(|at| Index { at });
    match call {
        DoseInCell => reply!(
            lukhtari_dose_in_cell(key, shape, at, length, cell, u),
            value,
            exact
        ),
        SlopeInCell => reply!(
            lukhtari_slope_in_cell(key, shape, at, length, cell, u, axis),
            value
        ),
        CurvatureInCell => {
            reply!(
                lukhtari_curvature_in_cell(key, shape, at, length, cell, u, axis),
                value
            )
        }
        CellTotal => reply!(lukhtari_cell_total(key, shape, at, length, cell), numerator),
        _ => reply!(
            lukhtari_box_total(key, shape, at, length, cell, last),
            numerator
        ),
    }
}

fn by_float(call: Call, key: u32, raw: &Raw) -> Reply {
    let Arguments { shape, axis, .. } = *raw.arguments;
    let (at, length) = raw.records;
    let [x, y, z] = raw.arguments.float;
    let float = FloatPosition { x, y, z };
    // SAFETY: as above.
    let real = match call {
        DoseFloat => unsafe { lukhtari_dose_float(key, shape, at, length, float) },
        _ => unsafe { lukhtari_slope_float(key, shape, at, length, float, axis) },
    };
    Reply {
        number: real.number,
        place: real.place,
        rest: vec![real.value.to_bits() as u64],
    }
}

fn from_records(call: Call, key: u32, raw: &Raw) -> Reply {
    let Arguments { shape, cell, .. } = *raw.arguments;
    let ((at, length), (out, room)) = (raw.records, raw.out);
    let cell = Index { at: cell };
    match call {
        Ramp => {
            let (list, numbers) = raw.list;
            reply!(
                lukhtari_ramp(key, shape, at, length, list, numbers, out, room),
                fetches
            )
        }
        Coefficients => reply!(lukhtari_coefficients(
            key, shape, at, length, cell, out, room
        )),
        Corners => {
            let (from, length) = raw.coefficients;
            let (axes, degree) = (shape.axes, shape.degree);
            reply!(lukhtari_corners(key, axes, degree, from, length, out, room))
        }
        _ => reply!(lukhtari_powers(key, shape, at, length, cell, out, room)),
    }
}

fn read(key: u32, raw: &Raw) -> Reply {
    // SAFETY: as above.
    let table = unsafe { lukhtari_read(key, raw.file.0, raw.file.1, raw.out.0, raw.out.1) };
    let numbers = [&[table.axes], &table.counts[..], &table.steps[..]].concat();
    let mut rest: Vec<u64> = numbers.into_iter().map(u64::from).collect();
    rest.push(table.second_edition as u64);
    let (number, place) = (table.number, table.place);
    Reply {
        number,
        place,
        rest,
    }
}

fn from_samples(call: Call, key: u32, raw: &Raw) -> Reply {
    let Arguments { shape, other, .. } = *raw.arguments;
    let [v, w] = raw.arguments.weights;
    let ((at, nodes), (out, room)) = (raw.samples, raw.out);
    match call {
        Write => {
            let (axes, second) = (shape.axes, shape.second_edition);
            let [counts, steps] = [shape.counts, shape.steps].map(|at| Index { at });
            let (to, space) = raw.bytes;
            reply!(
                lukhtari_write(key, axes, counts, steps, second, at, nodes, to, space),
                length
            )
        }
        Import => reply!(lukhtari_import(
            key, shape, raw.text.0, raw.text.1, out, room
        )),
        Estimate => reply!(lukhtari_estimate(key, shape, at, nodes, out, room)),
        _ => reply!(lukhtari_pool(
            key, shape, at, nodes, v, other, at, nodes, w, out, room
        )),
    }
}

const GUARD: i32 = -77_777;
const GUARD_BYTE: u8 = 0xA5;

// What a call replies and leaves in the slices.
#[derive(Clone, Debug, PartialEq, Eq)]
struct Seen {
    number: u32,
    place: u64,
    rest: Vec<u64>,
    out: Vec<i32>,
    bytes: Vec<u8>,
}

fn lent<T>(slice: &[T]) -> (*const T, usize) {
    (slice.as_ptr(), slice.len())
}

// The call over slices of guard values, of which the last three are not lent.
fn run(call: Call, key: u32, arguments: &Arguments) -> Seen {
    let mut out = vec![GUARD; arguments.room + 3];
    let mut bytes = vec![GUARD_BYTE; arguments.room + 3];
    let raw = Raw {
        arguments,
        records: lent(&arguments.records),
        samples: lent(&arguments.samples),
        list: lent(&arguments.list),
        coefficients: lent(&arguments.coefficients),
        file: lent(&arguments.file),
        text: lent(&arguments.text),
        out: (out.as_mut_ptr(), arguments.room),
        bytes: (bytes.as_mut_ptr(), arguments.room),
    };
    let Reply {
        number,
        place,
        rest,
    } = answered(call, key, &raw);
    Seen {
        number,
        place,
        rest,
        out,
        bytes,
    }
}

// Refused 30, with guard values alone in the slices.
fn unsaid(members: usize, room: usize) -> Seen {
    Seen {
        number: 30,
        place: 0,
        rest: vec![0; members],
        out: vec![GUARD; room + 3],
        bytes: vec![GUARD_BYTE; room + 3],
    }
}

// The arguments that the call takes, then each fault.
fn cases(call: Call) -> Vec<Arguments> {
    let good = taken(call);
    let faulty = FAULTS.iter().map(|fault| {
        let mut arguments = good.clone();
        fault(&mut arguments);
        arguments
    });
    [good.clone()].into_iter().chain(faulty).collect()
}

#[test]
fn every_call_has_its_row() {
    let names: BTreeSet<String> = calls()
        .iter()
        .map(|(call, ..)| format!("{call:?}"))
        .collect();
    assert_eq!((calls().len(), names.len()), (19, 19));
}

#[test]
fn keys_that_hold_the_right_get_the_same_answer() {
    for (call, keys, numbers) in calls() {
        let mut seen = BTreeSet::new();
        for arguments in cases(call) {
            let service = run(call, 3, &arguments);
            assert_ne!(service.number, 30);
            seen.insert(service.number);
            for &key in keys {
                assert_eq!(run(call, key, &arguments), service, "{call:?} {key}");
            }
        }
        assert_eq!(seen, numbers.iter().copied().collect(), "{call:?}");
    }
}

#[test]
fn other_keys_are_refused_before_every_other_test() {
    for (call, keys, _) in calls() {
        for arguments in cases(call) {
            let members = run(call, 3, &arguments).rest.len();
            for key in KEYS.into_iter().filter(|key| !keys.contains(key)) {
                let expected = unsaid(members, arguments.room);
                assert_eq!(run(call, key, &arguments), expected, "{call:?} {key}");
            }
        }
    }
}

#[test]
fn taken_arguments_are_written() {
    for (call, keys, _) in calls() {
        let arguments = taken(call);
        let done = run(call, keys[0], &arguments);
        let slice_free = matches!(call, Curvature | CurvatureInCell | CellTotal | BoxTotal);
        let fills = keys[0] > 1 && !slice_free || call == Ramp;
        let untouched = unsaid(0, arguments.room);
        let changed = (&done.out, &done.bytes) != (&untouched.out, &untouched.bytes);
        assert_eq!((done.number, changed), (0, fills), "{call:?}");
    }
}

// An address in the page of address 0, which is never mapped, and a length that no memory has.
fn nowhere<T>() -> (*mut T, usize) {
    (NonNull::dangling().as_ptr(), 1 << 40)
}

fn nowhere_to_read<T>() -> (*const T, usize) {
    let (at, length) = nowhere::<T>();
    (at.cast_const(), length)
}

#[test]
fn without_the_right_nothing_is_read_or_written() {
    for (call, keys, _) in calls() {
        let arguments = taken(call);
        let raw = Raw {
            arguments: &arguments,
            records: nowhere_to_read(),
            samples: nowhere_to_read(),
            list: nowhere_to_read(),
            coefficients: nowhere_to_read(),
            file: nowhere_to_read(),
            text: nowhere_to_read(),
            out: nowhere(),
            bytes: nowhere(),
        };
        for key in KEYS.into_iter().filter(|key| !keys.contains(key)) {
            assert_eq!(answered(call, key, &raw).number, 30, "{call:?} {key}");
        }
    }
}

// The number of the call made through Rust, 0 where it is not refused.
fn number(call: Call, key: Key, a: &Arguments) -> u32 {
    let (mut out, mut bytes) = (vec![0; a.room], vec![0; a.room]);
    let (out, bytes) = (&mut out[..], &mut bytes[..]);
    let (shape, rs, xs) = (a.shape, &a.records[..], &a.samples[..]);
    let list = [[64, 65, 0], [300, 301, 0]];
    let lattice = Measurement {
        shape,
        samples: xs,
        weight: 1,
    };
    let (n, counts, steps) = (shape.axes, shape.counts, shape.steps);
    let result: Result<(), Refusal> = match call {
        Dose => lukhtari::dose(key, shape, rs, a.position).map(|_| ()),
        DoseInCell => lukhtari::dose_in_cell(key, shape, rs, a.cell, a.u).map(|_| ()),
        DoseFloat => lukhtari::dose_float(key, shape, rs, a.float).map(|_| ()),
        Slope => lukhtari::slope(key, shape, rs, a.position, 0).map(|_| ()),
        SlopeInCell => lukhtari::slope_in_cell(key, shape, rs, a.cell, a.u, 0).map(|_| ()),
        SlopeFloat => lukhtari::slope_float(key, shape, rs, a.float, 0).map(|_| ()),
        Ramp => lukhtari::ramp(key, shape, rs, &list, out).map(|_| ()),
        Read => lukhtari::read(key, &a.file, out).map(|_| ()),
        Write => lukhtari::write(key, n, counts, steps, false, xs, bytes).map(|_| ()),
        Import => lukhtari::import(key, shape, &a.text, out),
        Estimate => lukhtari::estimate(key, shape, xs, out),
        Pool => lukhtari::pool(key, lattice, lattice, out),
        Coefficients => lukhtari::coefficients(key, shape, rs, a.cell, out),
        Corners => lukhtari::corners(key, n, shape.degree, &a.coefficients, out),
        Powers => lukhtari::powers(key, shape, rs, a.cell, out),
        Curvature => lukhtari::curvature(key, shape, rs, a.position, 0).map(|_| ()),
        CurvatureInCell => lukhtari::curvature_in_cell(key, shape, rs, a.cell, a.u, 0).map(|_| ()),
        CellTotal => lukhtari::cell_total(key, shape, rs, a.cell).map(|_| ()),
        BoxTotal => lukhtari::box_total(key, shape, rs, a.cell, a.last).map(|_| ()),
    };
    result.map_or_else(|refusal| refusal.number, |()| 0)
}

#[test]
fn calls_in_rust_hand_their_key_over() {
    for (call, keys, _) in calls() {
        for key in [Key::Operator, Key::Colourist, Key::Service] {
            let held = keys.contains(&(key as u32));
            let expected = if held { 0 } else { Refusal::KEY };
            assert_eq!(
                number(call, key, &taken(call)),
                expected,
                "{call:?} {key:?}"
            );
        }
    }
}
