//! Pictures turned into pixels by a renderer, and read from its PNG files.

mod inflate;

use inflate::inflate;
use std::path::Path;
use std::process::Command;

const RENDERER: &str = "rsvg-convert";

pub struct Pixels {
    pub width: usize,
    pub height: usize,
    colours: Vec<[u8; 3]>,
}

impl Pixels {
    // The pixel that a point lies in.
    pub fn at(&self, x: f64, y: f64) -> [u8; 3] {
        self.colours[y as usize * self.width + x as usize]
    }
}

// The pixels of a picture, or none where the renderer is not installed.
pub fn render(picture: &Path) -> Option<Pixels> {
    let rendered = Command::new(RENDERER).arg(picture).output();
    let Ok(rendered) = rendered else {
        println!("skipped: {RENDERER} is not installed (Debian's librsvg2-bin)");
        return None;
    };
    let said = String::from_utf8_lossy(&rendered.stderr);
    assert!(rendered.status.success(), "{said}");
    Some(decode(&rendered.stdout))
}

fn number(bytes: &[u8]) -> usize {
    u32::from_be_bytes(bytes.try_into().expect("four bytes")) as usize
}

// A PNG file of 8 bits for each of red, green, blue and, if it has them, opacity.
fn decode(png: &[u8]) -> Pixels {
    let mut rest = png.strip_prefix(b"\x89PNG\r\n\x1a\n").expect("a PNG file");
    let (mut head, mut data) = (Vec::new(), Vec::new());
    while !rest.is_empty() {
        let length = number(&rest[..4]);
        let (kind, content) = (&rest[4..8], &rest[8..8 + length]);
        match kind {
            b"IHDR" => head = content.to_vec(),
            b"IDAT" => data.extend_from_slice(content),
            _ => {}
        }
        rest = &rest[12 + length..];
    }
    let (width, height) = (number(&head[..4]), number(&head[4..8]));
    let bytes = match head[8..] {
        [8, 2, 0, 0, 0] => 3,
        [8, 6, 0, 0, 0] => 4,
        _ => panic!("another kind of PNG file: {head:?}"),
    };
    // Two bytes of header, four of checksum.
    let lines = inflate(&data[2..data.len() - 4]);
    let colours = unfiltered(&lines, width * bytes, bytes);
    let colours = colours
        .chunks(bytes)
        .map(|pixel| [pixel[0], pixel[1], pixel[2]]);
    Pixels {
        width,
        height,
        colours: colours.collect(),
    }
}

// The lines without their filters.
fn unfiltered(lines: &[u8], length: usize, bytes: usize) -> Vec<u8> {
    let mut all: Vec<u8> = Vec::new();
    for line in lines.chunks(length + 1) {
        let start = all.len();
        for (index, &byte) in line[1..].iter().enumerate() {
            let left = if index < bytes {
                0
            } else {
                all[start + index - bytes]
            };
            let above = if start == 0 {
                0
            } else {
                all[start + index - length]
            };
            let corner = match start == 0 || index < bytes {
                true => 0,
                false => all[start + index - length - bytes],
            };
            let guess = match line[0] {
                0 => 0,
                1 => left,
                2 => above,
                3 => ((u16::from(left) + u16::from(above)) / 2) as u8,
                4 => paeth(left, above, corner),
                other => panic!("filter {other}"),
            };
            all.push(byte.wrapping_add(guess));
        }
    }
    all
}

// Of the three, the nearest to left + above − corner.
fn paeth(left: u8, above: u8, corner: u8) -> u8 {
    let [a, b, c] = [left, above, corner].map(i32::from);
    let guess = a + b - c;
    let mut nearest = left;
    for other in [above, corner] {
        if (guess - i32::from(other)).abs() < (guess - i32::from(nearest)).abs() {
            nearest = other;
        }
    }
    nearest
}
