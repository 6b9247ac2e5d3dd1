//! Two tables pooled by weight.

use super::{pair, Command};
use crate::calls::Calls;
use crate::failure::{usage, Failure};
use crate::options::{self, Options};
use crate::refusals;
use crate::table::Table;
use lukhtari::{Measurement, Refusal};

pub const COMMAND: Command = Command {
    name: "pool",
    help: "\
Usage: lukhtari pool A B --weights V,W -o TABLE

Makes a table whose samples are the means of those of two tables of one shape, by weight, rounded to
the nearest unit, halves up. Weights are whole numbers from 0 to 10,000, not both 0.
",
    options: &[("--weights", true)],
    run,
};

fn run(calls: &Calls, options: &Options) -> Result<Vec<u8>, Failure> {
    let weights = weights(options)?;
    options.need_output()?;
    let (a, b) = pair(calls, options)?;
    let samples =
        pooled(calls, &a, &b, weights).map_err(|refusal| refusals::of_pair(&a, &b, refusal))?;
    Table { samples, ..a }.bytes(calls)
}

fn weights(options: &Options) -> Result<[u32; 2], Failure> {
    let Some(text) = options.get("--weights") else {
        return usage("--weights is missing");
    };
    let Some((v, w)) = text.split_once(',') else {
        return usage(format!("--weights {text} is not two numbers"));
    };
    Ok([
        options::number(v, options::WHOLE)?,
        options::number(w, options::WHOLE)?,
    ])
}

// The pooled samples of two tables.
pub fn pooled(calls: &Calls, a: &Table, b: &Table, weights: [u32; 2]) -> Result<Vec<i32>, Refusal> {
    let of = |table: &Table, weight: u32| (table.form.shape(3), weight);
    let ((shape, v), (other, w)) = (of(a, weights[0]), of(b, weights[1]));
    let mut samples = vec![0; a.samples.len()];
    let first = Measurement {
        shape,
        samples: &a.samples,
        weight: v,
    };
    let second = Measurement {
        shape: other,
        samples: &b.samples,
        weight: w,
    };
    calls.pool(first, second, &mut samples)?;
    Ok(samples)
}
