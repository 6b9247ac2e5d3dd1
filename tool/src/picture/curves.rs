//! A table of one axis: its samples, its curves, and the straight lines between the samples.

use super::svg::{Anchor, Point, Svg};
use super::{range, ticks, Shown};
use crate::words;
use lukhtari::limits::STEPS_MAX;

const LEFT: f64 = 90.0;
const TOP: f64 = 64.0;
const WIDTH: f64 = 640.0;
const HEIGHT: f64 = 330.0;
const RIGHT: f64 = 30.0;
const BOTTOM: f64 = 60.0;

const GRID: &str = "stroke=\"#dddddd\" stroke-width=\"1\"";
const FRAME: &str = "stroke=\"#444444\" stroke-width=\"1\"";
const STRAIGHT: &str = "stroke=\"#888888\" stroke-width=\"1\" stroke-dasharray=\"5 4\"";
const SAMPLE: &str = "fill=\"#000000\"";

// Answers in a degree at every so many steps.
pub struct Curve {
    pub degree: u32,
    pub values: Vec<i32>,
}

pub struct Curves<'a> {
    pub title: String,
    pub samples: &'a [i32],
    pub every: u32,
    pub curves: Vec<Curve>,
    pub shown: Shown,
}

// The plot: cells from left to right, numbers upwards.
struct Frame {
    cells: f64,
    low: f64,
    high: f64,
}

impl Frame {
    fn at(&self, cells: f64, number: f64) -> Point {
        let up = (number - self.low) / (self.high - self.low);
        (LEFT + WIDTH * cells / self.cells, TOP + HEIGHT * (1.0 - up))
    }
}

// The quintic curve is drawn over the cubic one, which is wider.
fn style(degree: u32) -> &'static str {
    if degree == 3 {
        "stroke=\"#7db8e0\" stroke-width=\"4\" stroke-linejoin=\"round\""
    } else {
        "stroke=\"#b02040\" stroke-width=\"2\" stroke-linejoin=\"round\""
    }
}

impl Curves<'_> {
    pub fn draw(&self) -> String {
        let mut svg = Svg::new(LEFT + WIDTH + RIGHT, TOP + HEIGHT + BOTTOM, &self.title);
        let straight = self.straight();
        let drawn = self.curves.iter().flat_map(|curve| &curve.values);
        let all = straight
            .iter()
            .map(|point| point.1 as i32)
            .chain(drawn.copied());
        let (least, most) = range(all);
        let marks = ticks::around(least, most, 8);
        let frame = Frame {
            cells: (self.samples.len() - 1) as f64,
            low: marks[0],
            high: marks[marks.len() - 1],
        };
        svg.text((LEFT, 22.0), Anchor::Start, &self.title);
        self.axes(&mut svg, &frame, &marks);
        let line: Vec<Point> = straight.iter().map(|&(x, y)| frame.at(x, y)).collect();
        svg.path(&line, STRAIGHT);
        for curve in &self.curves {
            svg.path(&self.points(curve, &frame), style(curve.degree));
        }
        if self.shown == Shown::Dose {
            for (node, &sample) in self.samples.iter().enumerate() {
                svg.circle(frame.at(node as f64, sample.into()), 3.5, SAMPLE);
            }
        }
        self.legend(&mut svg);
        svg.finish()
    }

    // The straight-line table: the lines between samples, or their slopes.
    fn straight(&self) -> Vec<Point> {
        let nodes = self.samples.iter().enumerate();
        if self.shown == Shown::Dose {
            return nodes
                .map(|(node, &sample)| (node as f64, sample.into()))
                .collect();
        }
        let cells = self.samples.windows(2).enumerate();
        let level = |(cell, pair): (usize, &[i32])| {
            let slope = f64::from(pair[1] - pair[0]);
            [(cell as f64, slope), ((cell + 1) as f64, slope)]
        };
        cells.flat_map(level).collect()
    }

    fn points(&self, curve: &Curve, frame: &Frame) -> Vec<Point> {
        let cells = |index: usize| index as f64 * f64::from(self.every) / f64::from(STEPS_MAX);
        let values = curve.values.iter().enumerate();
        values
            .map(|(index, &value)| frame.at(cells(index), value.into()))
            .collect()
    }

    // The frame, its grid, numbers and labels.
    fn axes(&self, svg: &mut Svg, frame: &Frame, marks: &[f64]) {
        for &mark in marks {
            let (x, y) = frame.at(0.0, mark);
            svg.line((x, y), (x + WIDTH, y), GRID);
            svg.text((x - 8.0, y + 4.0), Anchor::End, &mark.to_string());
        }
        for node in 0..self.samples.len() {
            let (x, y) = frame.at(node as f64, frame.low);
            svg.line((x, y), (x, TOP), GRID);
        }
        for node in ticks::within(0.0, frame.cells, 16) {
            let (x, y) = frame.at(node, frame.low);
            svg.text((x, y + 18.0), Anchor::Middle, &node.to_string());
        }
        svg.rectangle(
            (LEFT, TOP),
            (WIDTH, HEIGHT),
            &format!("fill=\"none\" {FRAME}"),
        );
        let below = (LEFT + WIDTH / 2.0, TOP + HEIGHT + 42.0);
        svg.text(below, Anchor::Middle, "x in cells, nodes at whole numbers");
        svg.upright_text((24.0, TOP + HEIGHT / 2.0), &self.shown.label());
    }

    // What the points and lines are.
    fn legend(&self, svg: &mut Svg) {
        let y = 44.0;
        let mut x = LEFT;
        let mut entry = |svg: &mut Svg, text: &str, style: Option<&str>| {
            match style {
                Some(style) => svg.line((x, y - 4.0), (x + 26.0, y - 4.0), style),
                None => svg.circle((x + 13.0, y - 4.0), 3.5, SAMPLE),
            }
            svg.text((x + 34.0, y), Anchor::Start, text);
            x += 120.0;
        };
        if self.shown == Shown::Dose {
            entry(svg, "samples", None);
        }
        for curve in &self.curves {
            entry(svg, words::degree(curve.degree), Some(style(curve.degree)));
        }
        entry(svg, "straight lines", Some(STRAIGHT));
    }
}
