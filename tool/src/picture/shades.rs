//! A table of two axes, or a slice of three: a shade for each answer, and the nodes.

use super::svg::{short, Anchor, Point, Svg};
use super::{range, ticks, Shown};
use crate::words;
use lukhtari::limits::STEPS_MAX;
use std::collections::BTreeMap;

const LEFT: f64 = 70.0;
const TOP: f64 = 46.0;
const BOTTOM: f64 = 64.0;
const SCALE: f64 = 36.0;
const SCALE_WIDTH: f64 = 18.0;
const RIGHT: f64 = 130.0;

const FRAME: &str = "fill=\"none\" stroke=\"#444444\" stroke-width=\"1\"";
const TICK: &str = "stroke=\"#444444\" stroke-width=\"1\"";
const NODE: &str = "stroke=\"#e07020\" stroke-width=\"1\"";
const RING: f64 = 4.0;

type Colour = [u8; 3];
const LIGHT: Colour = [245; 3];
const DARK: Colour = [10; 3];
const BELOW_ZERO: Colour = [33, 102, 172];
const ABOVE_ZERO: Colour = [178, 24, 43];

// One side of the picture: an axis in blocks, so many for each cell.
#[derive(Clone, Copy)]
pub struct Side {
    pub axis: usize,
    cells: u32,
    blocks: u32,
    pixels: f64,
}

impl Side {
    // A side of at most so many blocks and pixels.
    pub fn new(axis: usize, count: u32, most: u32, pixels: u32) -> Side {
        let cells = count - 1;
        let blocks = 1 << (most / cells).ilog2();
        let pixels = f64::from(pixels / (cells * blocks + 1));
        Side {
            axis,
            cells,
            blocks,
            pixels,
        }
    }

    // A block stands at each node and at equal steps between.
    pub fn number(&self) -> u32 {
        self.cells * self.blocks + 1
    }

    // The steps from one block to the next.
    pub fn every(&self) -> u32 {
        STEPS_MAX / self.blocks
    }

    fn length(&self) -> f64 {
        f64::from(self.number()) * self.pixels
    }

    // The middle of a node's block from the side's start.
    fn node(&self, node: f64) -> f64 {
        (node * f64::from(self.blocks) + 0.5) * self.pixels
    }
}

pub struct Shades {
    pub title: String,
    pub across: Side,
    pub up: Side,
    // Answers block by block, across first.
    pub values: Vec<i32>,
    pub shown: Shown,
}

impl Shades {
    pub fn draw(&self) -> String {
        let (width, height) = (self.across.length(), self.up.length());
        let mut svg = Svg::new(
            LEFT + width + SCALE + RIGHT,
            TOP + height + BOTTOM,
            &self.title,
        );
        svg.text((LEFT, 22.0), Anchor::Start, &self.title);
        self.blocks(&mut svg);
        svg.rectangle((LEFT, TOP), (width, height), FRAME);
        self.nodes(&mut svg);
        self.axes(&mut svg);
        self.scale(&mut svg);
        svg.finish()
    }

    // The numbers at the ends of the scale.
    fn ends(&self) -> (f64, f64) {
        let (least, most) = range(self.values.iter().copied());
        match self.shown {
            Shown::Dose => (least, most),
            Shown::Slope(_) => {
                let size = most.max(-least);
                (-size, size)
            }
        }
    }

    fn colour(&self, number: f64) -> Colour {
        let (least, most) = self.ends();
        let part = (number - least) / (most - least);
        match self.shown {
            Shown::Dose => mix(LIGHT, DARK, part),
            Shown::Slope(_) if number < 0.0 => mix(LIGHT, BELOW_ZERO, 1.0 - 2.0 * part),
            Shown::Slope(_) => mix(LIGHT, ABOVE_ZERO, 2.0 * part - 1.0),
        }
    }

    // All blocks, as one path for each colour; y runs upwards.
    fn blocks(&self, svg: &mut Svg) {
        let mut runs: BTreeMap<Colour, String> = BTreeMap::new();
        let rows = self.values.chunks(self.across.number() as usize).rev();
        for (row, values) in rows.enumerate() {
            let colours: Vec<Colour> = values.iter().map(|&v| self.colour(v.into())).collect();
            let mut start = 0;
            for run in colours.chunk_by(|a, b| a == b) {
                let data = runs.entry(run[0]).or_default();
                *data += &format!("M{start} {row}h{}", run.len());
                start += run.len();
            }
        }
        let (width, height) = (self.across.pixels, self.up.pixels);
        svg.raw(&format!(
            "<g transform=\"translate({LEFT} {}) scale({width} {height})\" stroke-width=\"1\" \
             shape-rendering=\"crispEdges\">",
            short(TOP + height / 2.0)
        ));
        for (colour, data) in runs {
            svg.raw(&format!("<path stroke=\"{}\" d=\"{data}\"/>", text(colour)));
        }
        svg.raw("</g>");
    }

    // The place of a node in the picture.
    fn at(&self, across: f64, up: f64) -> Point {
        (
            LEFT + self.across.node(across),
            TOP + self.up.length() - self.up.node(up),
        )
    }

    // Whether cells are large enough for a ring at each node.
    fn ringed(&self) -> bool {
        let cell = |side: &Side| f64::from(side.blocks) * side.pixels;
        cell(&self.across).min(cell(&self.up)) >= 4.0 * RING
    }

    // A ring around each node, so that its shade is seen, or short lines at both sides.
    fn nodes(&self, svg: &mut Svg) {
        let bottom = TOP + self.up.length();
        if self.ringed() {
            for up in 0..=self.up.cells {
                for across in 0..=self.across.cells {
                    let style = format!("fill=\"none\" {NODE}");
                    svg.circle(self.at(across.into(), up.into()), RING, &style);
                }
            }
            return;
        }
        for across in 0..=self.across.cells {
            let (x, _) = self.at(across.into(), 0.0);
            svg.line((x, bottom), (x, bottom + 3.0), NODE);
        }
        for up in 0..=self.up.cells {
            let (_, y) = self.at(0.0, up.into());
            svg.line((LEFT - 3.0, y), (LEFT, y), NODE);
        }
    }

    // Numbers and letters of both axes.
    fn axes(&self, svg: &mut Svg) {
        let bottom = TOP + self.up.length();
        for node in ticks::within(0.0, self.across.cells.into(), 12) {
            let (x, _) = self.at(node, 0.0);
            svg.line((x, bottom), (x, bottom + 6.0), TICK);
            svg.text((x, bottom + 20.0), Anchor::Middle, &node.to_string());
        }
        for node in ticks::within(0.0, self.up.cells.into(), 12) {
            let (_, y) = self.at(0.0, node);
            svg.line((LEFT - 6.0, y), (LEFT, y), TICK);
            svg.text((LEFT - 9.0, y + 4.0), Anchor::End, &node.to_string());
        }
        let label = |side: &Side| format!("{} in cells", words::AXES[side.axis]);
        let below = (LEFT + self.across.length() / 2.0, bottom + 42.0);
        let marks = if self.ringed() {
            "rings"
        } else {
            "short lines"
        };
        let across = format!("{}, {marks} at nodes", label(&self.across));
        svg.text(below, Anchor::Middle, &across);
        svg.upright_text((22.0, TOP + self.up.length() / 2.0), &label(&self.up));
    }

    // The scale of shades with numbers and their unit.
    fn scale(&self, svg: &mut Svg) {
        let (least, most) = self.ends();
        let (x, height) = (LEFT + self.across.length() + SCALE, self.up.length());
        let stops: Vec<String> = [0.0, 0.5, 1.0]
            .iter()
            .map(|&part| {
                let colour = text(self.colour(least + part * (most - least)));
                format!("<stop offset=\"{part}\" stop-color=\"{colour}\"/>")
            })
            .collect();
        svg.raw(&format!(
            "<linearGradient id=\"scale\" x1=\"0\" y1=\"1\" x2=\"0\" y2=\"0\">{}</linearGradient>",
            stops.concat()
        ));
        svg.rectangle(
            (x, TOP),
            (SCALE_WIDTH, height),
            "fill=\"url(#scale)\" stroke=\"#444444\"",
        );
        for mark in ticks::within(least, most, 8) {
            let y = TOP + height * (most - mark) / (most - least);
            let right = x + SCALE_WIDTH;
            svg.line((right, y), (right + 5.0, y), TICK);
            svg.text((right + 9.0, y + 4.0), Anchor::Start, &mark.to_string());
        }
        svg.upright_text(
            (x + SCALE_WIDTH + 74.0, TOP + height / 2.0),
            &self.shown.label(),
        );
    }
}

// A colour between two.
fn mix(from: Colour, to: Colour, part: f64) -> Colour {
    [0, 1, 2].map(|index| {
        let (from, to) = (f64::from(from[index]), f64::from(to[index]));
        (from + (to - from) * part).round() as u8
    })
}

fn text([red, green, blue]: Colour) -> String {
    format!("#{red:02x}{green:02x}{blue:02x}")
}
