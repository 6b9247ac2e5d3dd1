//! Decompression by RFC 1951.

struct Bits<'a> {
    bytes: &'a [u8],
    place: usize,
}

impl Bits<'_> {
    fn bit(&mut self) -> usize {
        let bit = self.bytes[self.place / 8] >> (self.place % 8) & 1;
        self.place += 1;
        bit.into()
    }

    // A number of so many bits, lowest first.
    fn number(&mut self, bits: usize) -> usize {
        (0..bits).map(|place| self.bit() << place).sum()
    }
}

// A code: for each length the number of its symbols, and all symbols in order.
struct Code {
    counts: [usize; 16],
    symbols: Vec<usize>,
}

impl Code {
    fn new(lengths: &[usize]) -> Code {
        let mut counts = [0; 16];
        let mut symbols = Vec::new();
        for (length, count) in counts.iter_mut().enumerate().skip(1) {
            let here = (0..lengths.len()).filter(|&symbol| lengths[symbol] == length);
            let before = symbols.len();
            symbols.extend(here);
            *count = symbols.len() - before;
        }
        Code { counts, symbols }
    }

    fn symbol(&self, bits: &mut Bits) -> usize {
        let (mut code, mut first, mut index) = (0, 0, 0);
        for count in &self.counts[1..] {
            code |= bits.bit();
            if code < first + count {
                return self.symbols[index + code - first];
            }
            index += count;
            first = (first + count) << 1;
            code <<= 1;
        }
        panic!("no such code");
    }
}

// The least length or distance of a symbol and its further bits.
fn lengths(symbol: usize) -> (usize, usize) {
    match symbol {
        0..=7 => (3 + symbol, 0),
        28 => (258, 0),
        _ => {
            let bits = symbol / 4 - 1;
            (3 + ((4 + symbol % 4) << bits), bits)
        }
    }
}

fn distances(symbol: usize) -> (usize, usize) {
    match symbol {
        0..=3 => (1 + symbol, 0),
        _ => {
            let bits = symbol / 2 - 1;
            (1 + ((2 + symbol % 2) << bits), bits)
        }
    }
}

fn fixed_codes() -> (Code, Code) {
    let length = |symbol| match symbol {
        0..=143 => 8,
        144..=255 => 9,
        256..=279 => 7,
        _ => 8,
    };
    let lengths: Vec<usize> = (0..288).map(length).collect();
    (Code::new(&lengths), Code::new(&[5; 30]))
}

// Codes that stand at the start of a block.
fn own_codes(bits: &mut Bits) -> (Code, Code) {
    const ORDER: [usize; 19] = [
        16, 17, 18, 0, 8, 7, 9, 6, 10, 5, 11, 4, 12, 3, 13, 2, 14, 1, 15,
    ];
    let (literals, distances) = (257 + bits.number(5), 1 + bits.number(5));
    let given = 4 + bits.number(4);
    let mut first = [0; 19];
    for &place in &ORDER[..given] {
        first[place] = bits.number(3);
    }
    let code = Code::new(&first);
    let mut all: Vec<usize> = Vec::new();
    while all.len() < literals + distances {
        let (value, times) = match code.symbol(bits) {
            16 => (all[all.len() - 1], 3 + bits.number(2)),
            17 => (0, 3 + bits.number(3)),
            18 => (0, 11 + bits.number(7)),
            length => (length, 1),
        };
        all.extend(vec![value; times]);
    }
    (Code::new(&all[..literals]), Code::new(&all[literals..]))
}

// A block's bytes after those before it.
fn block(bits: &mut Bits, (literals, far): (Code, Code), out: &mut Vec<u8>) {
    loop {
        match literals.symbol(bits) {
            256 => return,
            literal @ 0..=255 => out.push(literal as u8),
            symbol => {
                let (least, more) = lengths(symbol - 257);
                let length = least + bits.number(more);
                let (least, more) = distances(far.symbol(bits));
                let distance = least + bits.number(more);
                for _ in 0..length {
                    out.push(out[out.len() - distance]);
                }
            }
        }
    }
}

fn stored(bits: &mut Bits, out: &mut Vec<u8>) {
    bits.place = bits.place.next_multiple_of(8);
    let length = bits.number(16);
    bits.number(16);
    out.extend((0..length).map(|_| bits.number(8) as u8));
}

pub fn inflate(bytes: &[u8]) -> Vec<u8> {
    let mut bits = Bits { bytes, place: 0 };
    let mut out = Vec::new();
    loop {
        let last = bits.bit() == 1;
        match bits.number(2) {
            0 => stored(&mut bits, &mut out),
            1 => block(&mut bits, fixed_codes(), &mut out),
            _ => {
                let codes = own_codes(&mut bits);
                block(&mut bits, codes, &mut out);
            }
        }
        if last {
            return out;
        }
    }
}
