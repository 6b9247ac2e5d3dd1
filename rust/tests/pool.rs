//! Two lattices pooled by weight, against the model.

mod common;
mod model;

use common::*;
use lukhtari::limits::{SAMPLE_LIMIT, WEIGHT_MAX};
use lukhtari::{estimate, pool, Key, Measurement, Shape};
use model::pool::mean;
use model::{Answer, Rational};

#[derive(Clone, Debug)]
struct Lattice {
    shape: Shape,
    samples: Vec<i32>,
    weight: u32,
}

impl Lattice {
    fn new(shape: Shape, samples: Vec<i32>, weight: u32) -> Lattice {
        Lattice {
            shape,
            samples,
            weight,
        }
    }

    // A line of samples.
    fn line(samples: &[i32], weight: u32) -> Lattice {
        let shape = shape(1, 3, [samples.len() as u32, 1, 1]);
        Lattice::new(shape, samples.to_vec(), weight)
    }

    fn lent(&self) -> Measurement<'_> {
        Measurement {
            shape: self.shape,
            samples: &self.samples,
            weight: self.weight,
        }
    }

    fn plain(&self) -> model::pool::Measurement {
        model::pool::Measurement {
            shape: plain_shape(self.shape),
            samples: self.samples.clone(),
            weight: self.weight,
        }
    }
}

#[derive(Clone, Debug)]
struct Call {
    a: Lattice,
    b: Lattice,
    room: usize,
}

impl Call {
    // A call with room for the samples.
    fn new(a: Lattice, b: Lattice) -> Call {
        let room = a.shape.nodes();
        Call { a, b, room }
    }

    // Random samples of one shape.
    fn random(random: &mut Random, shape: Shape, v: u32, w: u32) -> Call {
        let nodes = shape.nodes();
        let a = Lattice::new(shape, random.samples(nodes), v);
        Call::new(a, Lattice::new(shape, random.samples(nodes), w))
    }
}

// Makes the call, compares answer and buffer with the model's, and returns what was written.
#[track_caller]
fn run_out(call: &Call) -> Answer<Vec<i32>> {
    let expected = model::pool::pool(&call.a.plain(), &call.b.plain(), call.room);
    let mut buffer = Lent::new(call.room);
    let got = plain(pool(
        Key::Service,
        call.a.lent(),
        call.b.lent(),
        buffer.slice(),
    ));
    assert_eq!(got, outcome(&expected));
    buffer.check(expected.as_deref().unwrap_or_default());
    expected
}

#[track_caller]
fn run(call: &Call) -> Answer<()> {
    outcome(&run_out(call))
}

// The pooled samples of two lines.
#[track_caller]
fn pooled(a: &[i32], v: u32, b: &[i32], w: u32) -> Vec<i32> {
    let call = Call::new(Lattice::line(a, v), Lattice::line(b, w));
    run_out(&call).expect("accepted lattices")
}

// Each pooled sample is within 1/2 of the exact mean and between its parents.
#[track_caller]
fn check_means(call: &Call) {
    let samples = run_out(call).expect("accepted lattices");
    let Call { a, b, .. } = call;
    for (index, &sample) in samples.iter().enumerate() {
        let [x, y] = [a.samples[index], b.samples[index]];
        let off = Rational::whole(sample as i64) - mean(x, a.weight, y, b.weight);
        assert!(off.abs() <= Rational::ratio(1, 2), "{x} {y}");
        assert!((x.min(y)..=x.max(y)).contains(&sample), "{x} {y}");
    }
}

#[test]
fn worked_examples() {
    let (a, b) = ([0, 100, -100, 7], [10, 200, 100, 7]);
    assert_eq!(pooled(&a, 1, &b, 1), [5, 150, 0, 7]);
    assert_eq!(pooled(&a, 3, &b, 1), [3, 125, -50, 7]);
    assert_eq!(pooled(&a, 1, &b, 3), [8, 175, 50, 7]);
    assert_eq!(pooled(&a, 1, &b, 2), [7, 167, 33, 7]);
    assert_eq!(pooled(&a, 2, &b, 1), [3, 133, -33, 7]);
    assert_eq!(pooled(&a, 9999, &b, 1), [0, 100, -100, 7]);
}

#[test]
fn halves_go_up_on_both_sides_of_0() {
    let (a, b) = ([-3, -2, -1, 0, 1, 2], [-2, -1, 0, 1, 2, 3]);
    for weight in [1, 2, 5_000, WEIGHT_MAX] {
        assert_eq!(pooled(&a, weight, &b, weight), b);
        assert_eq!(pooled(&b, weight, &a, weight), b);
    }
    // The half less one part of the sum, and one part more.
    assert_eq!(pooled(&a, 5_001, &b, 5_000), a);
    assert_eq!(pooled(&a, 5_000, &b, 5_001), b);
    // 1/2, 3/2, -1/2 and -3/2 of weights 1 and 3, 3 and 5.
    assert_eq!(pooled(&[0, 0, 0, 0], 1, &[2, -2, 6, -6], 3), [2, -1, 5, -4]);
    assert_eq!(
        pooled(&[4, 12, -4, -12], 3, &[0, 0, 0, 0], 5),
        [2, 5, -1, -4]
    );
    // Halves go up in edition two, too.
    for shape in editions(shape(1, 5, [6, 1, 1])) {
        let lattice = |samples: &[i32]| Lattice::new(shape, samples.to_vec(), 1);
        let call = Call::new(lattice(&a), lattice(&b));
        assert_eq!(run_out(&call), Ok(b.to_vec()));
    }
}

#[test]
fn all_small_samples_and_weights() {
    let samples: Vec<(i32, i32)> = (-4..=4)
        .flat_map(|a| (-4..=4).map(move |b| (a, b)))
        .collect();
    for lines in samples.chunks(27) {
        let (a, b): (Vec<i32>, Vec<i32>) = lines.iter().copied().unzip();
        for v in 0..=7 {
            for w in 0..=7 {
                let call = Call::new(Lattice::line(&a, v), Lattice::line(&b, w));
                match (v, w) {
                    (0, 0) => assert_eq!(run(&call), refused(28, 0)),
                    _ => check_means(&call),
                }
            }
        }
    }
}

#[test]
fn the_largest_sums() {
    let limit = SAMPLE_LIMIT;
    let ends = [limit, -limit, limit - 1, 1 - limit, 0, 1, -1];
    let a: Vec<i32> = ends.iter().flat_map(|&a| [a; 7]).collect();
    let b: Vec<i32> = ends.iter().cycle().take(49).copied().collect();
    for v in [0, 1, 9_999, WEIGHT_MAX] {
        for w in [1, 2, 9_999, WEIGHT_MAX] {
            check_means(&Call::new(Lattice::line(&a, v), Lattice::line(&b, w)));
            check_means(&Call::new(Lattice::line(&a, w), Lattice::line(&b, v)));
        }
    }
}

#[test]
fn random_lattices() {
    let mut random = Random::new(12);
    for (axes, degree) in KINDS {
        for _ in 0..200 {
            let shape = random.shape(axes, degree, [64, 8, 4][axes as usize - 1]);
            let small = random.range(1, 20) as u32;
            let weights = [0, 1, small, random.range(1, 10_000) as u32, WEIGHT_MAX];
            let (v, w) = (random.pick(&weights), random.pick(&weights));
            let call = Call::random(&mut random, shape, v, w);
            match (v, w) {
                (0, 0) => assert_eq!(run(&call), refused(28, 0)),
                _ => check_means(&call),
            }
        }
    }
}

// One to three faults of any kind.
fn spoil(random: &mut Random, call: &mut Call) {
    for _ in 0..random.range(1, 3) {
        let any = random.next() as u32;
        let Call { a, b, room } = call;
        let one = if random.chance(2) { a } else { b };
        match random.below(9) {
            0 => one.shape.axes = random.below(5) as u32,
            1 => one.shape.degree = random.below(8) as u32,
            2 => one.shape.counts[random.below(3) as usize] = random.below(67) as u32,
            3 => one.shape.steps[random.below(3) as usize] = random.pick(&[1, 16, 256, any]),
            4 => one.shape.second_edition ^= true,
            5 => one.weight = random.pick(&[0, WEIGHT_MAX, WEIGHT_MAX + 1, any]),
            6 => one.samples.truncate(random.below(3) as usize),
            7 => *room = room.saturating_sub(1),
            _ => one
                .samples
                .iter_mut()
                .step_by(5)
                .for_each(|x| *x = any as i32),
        }
    }
}

#[test]
fn random_faults() {
    let mut random = Random::new(13);
    for (axes, degree) in KINDS {
        for _ in 0..2_000 {
            let shape = random.shape(axes, degree, 4);
            let mut call = Call::random(&mut random, shape, 1, 2);
            spoil(&mut random, &mut call);
            let _ = run(&call);
        }
    }
}

#[test]
fn lattices_that_can_be_estimated_are_pooled_to_such_ones() {
    let mut random = Random::new(14);
    for (axes, degree) in KINDS {
        for _ in 0..50 {
            let shape = random.shape(axes, degree, 4);
            let [a, b] = [3, 4].map(|w| Lattice::new(shape, random.estimable(shape), w));
            let samples = run_out(&Call::new(a, b)).expect("accepted lattices");
            let mut records = vec![0; shape.entries()];
            assert_eq!(
                estimate(Key::Service, shape, &samples, &mut records),
                Ok(())
            );
        }
    }
}

#[test]
fn weight_0_gives_the_other_lattice() {
    let mut random = Random::new(1);
    for (axes, degree) in KINDS {
        for weight in [1, 2, 77, WEIGHT_MAX] {
            let shape = random.shape(axes, degree, 5);
            let call = Call::random(&mut random, shape, weight, 0);
            assert_eq!(run_out(&call), Ok(call.a.samples.clone()));
            let call = Call::random(&mut random, shape, 0, weight);
            assert_eq!(run_out(&call), Ok(call.b.samples.clone()));
        }
    }
}

#[test]
fn a_lattice_with_itself_is_given_back() {
    let mut random = Random::new(2);
    for (axes, degree) in KINDS {
        for (v, w) in [(1, 1), (0, 1), (1, 0), (3, 7), (9_999, WEIGHT_MAX)] {
            let shape = random.shape(axes, degree, 5);
            let samples = random.samples(shape.nodes());
            let lattice = |weight| Lattice::new(shape, samples.clone(), weight);
            let call = Call::new(lattice(v), lattice(w));
            assert_eq!(run_out(&call), Ok(samples.clone()));
            // One slice lent for both.
            let mut buffer = Lent::new(samples.len());
            let [a, b] = [v, w].map(|weight| Measurement {
                shape,
                samples: &samples,
                weight,
            });
            assert_eq!(pool(Key::Service, a, b, buffer.slice()), Ok(()));
            buffer.check(&samples);
        }
    }
}

#[test]
fn the_order_of_the_lattices_does_not_matter() {
    let mut random = Random::new(3);
    for _ in 0..100 {
        let shape = random.shape(2, 3, 9);
        let [v, w] = [0; 2].map(|_| random.range(1, 10_000) as u32);
        let call = Call::random(&mut random, shape, v, w);
        let turned = Call::new(call.b.clone(), call.a.clone());
        assert_eq!(run_out(&call), run_out(&turned));
    }
}

#[test]
fn weights_at_their_ends() {
    let weights = [0, 1, 9_999, WEIGHT_MAX, WEIGHT_MAX + 1, 1 << 31, u32::MAX];
    for v in weights {
        for w in weights {
            let call = Call::new(Lattice::line(&[1, 2], v), Lattice::line(&[3, 5], w));
            let allowed = v <= WEIGHT_MAX && w <= WEIGHT_MAX && (v, w) != (0, 0);
            let expected = if allowed { Ok(()) } else { refused(28, 0) };
            assert_eq!(run(&call), expected, "{v} {w}");
        }
    }
    // Weights whose sum is 0 or small in 32 bits.
    for (v, w) in [(u32::MAX, 1), (u32::MAX, 2), (1 << 31, 1 << 31)] {
        let call = Call::new(Lattice::line(&[1, 2], v), Lattice::line(&[3, 5], w));
        assert_eq!(run(&call), refused(28, 0), "{v} {w}");
    }
}

// A shape, and others that differ from it in one number, in two counts or steps exchanged, in the
// edition; all of them have 4 nodes.
fn differing() -> (Shape, Vec<Shape>) {
    let plane = shape(2, 3, [2, 2, 1]);
    let mut others = vec![
        shape(1, 3, [4, 1, 1]),
        shape(2, 5, [2, 2, 1]),
        in_edition(plane, true),
    ];
    for axis in 0..2 {
        for number in [16, 32, 64, 128] {
            let mut other = plane;
            other.steps[axis] = number;
            others.push(other);
        }
    }
    (plane, others)
}

#[test]
fn shapes_that_differ_in_one_field() {
    let (plane, others) = differing();
    let lattice = |shape| Lattice::new(shape, vec![1, 2, 3, 4], 1);
    for other in others {
        for (a, b) in [(plane, other), (other, plane)] {
            let call = Call::new(lattice(a), lattice(b));
            assert_eq!(run(&call), refused(27, 0), "{other:?}");
        }
        assert_eq!(run(&Call::new(lattice(other), lattice(other))), Ok(()));
    }
    // Counts exchanged, and one count other on each axis.
    let counts = [
        [2, 3, 4],
        [3, 2, 4],
        [4, 3, 2],
        [2, 4, 3],
        [3, 3, 4],
        [2, 2, 4],
        [2, 3, 5],
    ];
    let [first, others @ ..] = counts.map(|counts| shape(3, 5, counts));
    let lattice = |shape: Shape| Lattice::new(shape, vec![0; shape.nodes()], 1);
    for other in others {
        let call = Call::new(lattice(first), lattice(other));
        assert_eq!(run(&call), refused(27, 0), "{other:?}");
    }
}

#[test]
fn coarser_axes_are_pooled_alike() {
    let mut coarse = shape(3, 3, [2, 3, 2]);
    coarse.steps = [16, 64, 256];
    check_means(&Call::random(&mut Random::new(5), coarse, 3, 4));
}

fn call_of(shape: Shape) -> Call {
    let lattice = |weight| Lattice::new(shape, vec![1; shape.nodes()], weight);
    Call::new(lattice(2), lattice(3))
}

#[test]
fn wrong_shapes_are_refused() {
    for (axes, degree) in KINDS {
        check_wrong_shapes(axes, degree, call_of, |call| &mut call.a.shape, run);
        check_wrong_shapes(axes, degree, call_of, |call| &mut call.b.shape, run);
    }
}

#[test]
fn wrong_lengths() {
    for (axes, degree) in KINDS {
        let shape = cube(axes, degree, 3);
        let nodes = shape.nodes();
        for length in [0, 1, nodes - 1, nodes + 1, 2 * nodes] {
            for first in [true, false] {
                let mut call = call_of(shape);
                let samples = match first {
                    true => &mut call.a.samples,
                    false => &mut call.b.samples,
                };
                samples.resize(length, 1);
                for room in [0, nodes, 3 * nodes] {
                    call.room = room;
                    assert_eq!(run(&call), refused(4, 0), "{length} samples");
                }
            }
        }
    }
}

#[test]
fn short_and_long_slices() {
    for (axes, degree) in KINDS {
        let call = call_of(cube(axes, degree, 3));
        check_rooms(&call, |call| &mut call.room, run);
    }
}

#[test]
fn samples_beyond_their_limit() {
    let beyond = [SAMPLE_LIMIT + 1, -SAMPLE_LIMIT - 1, i32::MAX, i32::MIN];
    for (axes, degree) in KINDS {
        let call = call_of(cube(axes, degree, 3));
        let nodes = call.room;
        for (index, sample) in (0..nodes).flat_map(|index| beyond.map(|sample| (index, sample))) {
            let expected = refused(5, index as u64);
            let mut first = call.clone();
            first.a.samples[index] = sample;
            assert_eq!(run(&first), expected);
            let mut second = call.clone();
            second.b.samples[index] = sample;
            assert_eq!(run(&second), expected);
            // The first lattice decides, also where the second has an earlier index.
            first.b.samples[0] = sample;
            assert_eq!(run(&first), expected);
            // A weight of 0 does not matter.
            second.b.weight = 0;
            assert_eq!(run(&second), expected);
        }
    }
}

// Under each number of 1, 2, 3 and 26 the faults of the first shape before those of the second.
fn shape_faults_in_turn(axes: u32) -> Vec<Fault<Call>> {
    let mut faults = shape_faults(|call: &mut Call| &mut call.a.shape, axes);
    faults.extend(shape_faults(|call: &mut Call| &mut call.b.shape, axes));
    let order = [1, 2, 3, 26];
    faults.sort_by_key(|fault| order.iter().position(|&number| number == fault.number));
    faults
}

#[test]
fn faults_in_order() {
    for (axes, degree) in KINDS {
        let mut faults = shape_faults_in_turn(axes);
        faults.extend([
            fault(27, 0, |call: &mut Call| {
                call.b.shape.second_edition = !call.a.shape.second_edition
            }),
            fault(28, 0, |call: &mut Call| call.b.weight = WEIGHT_MAX + 1),
            fault(4, 0, |call: &mut Call| call.a.samples.truncate(1)),
            fault(4, 0, |call: &mut Call| call.b.samples.push(0)),
            fault(9, 0, |call: &mut Call| call.room -= 1),
            fault(5, 1, |call: &mut Call| call.a.samples[1] = SAMPLE_LIMIT + 1),
            fault(5, 0, |call: &mut Call| {
                call.b.samples[0] = -SAMPLE_LIMIT - 1
            }),
        ]);
        check_faults(&call_of(cube(axes, degree, 2)), &faults, run);
    }
}

#[test]
fn weights_that_are_both_0_before_lengths() {
    let mut call = call_of(cube(2, 3, 3));
    (call.a.weight, call.b.weight) = (0, 0);
    for (room, length) in [(9, 9), (0, 9), (9, 0), (0, 0)] {
        call.room = room;
        call.a.samples.resize(length, 1);
        assert_eq!(run(&call), refused(28, 0));
    }
}
