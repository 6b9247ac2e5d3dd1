//! The elements of a picture.

use std::fmt::Write;

pub type Point = (f64, f64);

// Where a text stands of its point.
#[derive(Clone, Copy)]
pub enum Anchor {
    Start,
    Middle,
    End,
}

pub struct Svg {
    text: String,
}

impl Svg {
    // An empty picture on white, with a title.
    pub fn new(width: f64, height: f64, title: &str) -> Svg {
        let mut text = String::new();
        let title = escaped(title);
        let _ = write!(
            text,
            "<svg xmlns=\"http://www.w3.org/2000/svg\" width=\"{width}\" height=\"{height}\" \
             viewBox=\"0 0 {width} {height}\" font-family=\"sans-serif\" font-size=\"12\">\n\
             <title>{title}</title>\n\
             <rect width=\"{width}\" height=\"{height}\" fill=\"#ffffff\"/>\n"
        );
        Svg { text }
    }

    pub fn finish(self) -> String {
        self.text + "</svg>\n"
    }

    // Elements as they are.
    pub fn raw(&mut self, elements: &str) {
        self.text.push_str(elements);
        self.text.push('\n');
    }

    pub fn line(&mut self, from: Point, to: Point, style: &str) {
        self.path(&[from, to], style);
    }

    // Straight pieces through points.
    pub fn path(&mut self, points: &[Point], style: &str) {
        let mut data = String::new();
        for (index, &(x, y)) in points.iter().enumerate() {
            let letter = if index == 0 { 'M' } else { 'L' };
            let _ = write!(data, "{letter}{} {}", short(x), short(y));
        }
        self.raw(&format!("<path d=\"{data}\" fill=\"none\" {style}/>"));
    }

    pub fn circle(&mut self, (x, y): Point, radius: f64, style: &str) {
        let (x, y, radius) = (short(x), short(y), short(radius));
        self.raw(&format!(
            "<circle cx=\"{x}\" cy=\"{y}\" r=\"{radius}\" {style}/>"
        ));
    }

    pub fn rectangle(&mut self, (x, y): Point, (width, height): Point, style: &str) {
        let [x, y, width, height] = [x, y, width, height].map(short);
        self.raw(&format!(
            "<rect x=\"{x}\" y=\"{y}\" width=\"{width}\" height=\"{height}\" {style}/>"
        ));
    }

    pub fn text(&mut self, (x, y): Point, anchor: Anchor, text: &str) {
        let anchor = name(anchor);
        let (x, y, text) = (short(x), short(y), escaped(text));
        self.raw(&format!(
            "<text x=\"{x}\" y=\"{y}\" text-anchor=\"{anchor}\">{text}</text>"
        ));
    }

    // A text that is read from below to above, with its middle at the point.
    pub fn upright_text(&mut self, (x, y): Point, text: &str) {
        let (x, y, text) = (short(x), short(y), escaped(text));
        self.raw(&format!(
            "<text transform=\"translate({x} {y}) rotate(-90)\" text-anchor=\"middle\">{text}</text>"
        ));
    }
}

fn name(anchor: Anchor) -> &'static str {
    match anchor {
        Anchor::Start => "start",
        Anchor::Middle => "middle",
        Anchor::End => "end",
    }
}

// A number with at most two decimals.
pub fn short(number: f64) -> String {
    let text = format!("{number:.2}");
    let text = text.trim_end_matches('0').trim_end_matches('.');
    text.to_string()
}

fn escaped(text: &str) -> String {
    let text = text.replace('&', "&amp;").replace('<', "&lt;");
    // Bytes that XML does not take.
    text.replace(|letter: char| letter.is_control(), " ")
}
