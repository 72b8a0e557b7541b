// The same work in Rust: a file read whole, one pass over its bytes, an image read place by place with
// repeated edges, and its raster decoded into a Vec<u16>.
use std::time::Instant;

struct Image<'a> {
    height: u32,
    width: u32,
    wide: bool,
    raster: &'a [u8],
}

fn number(bytes: &[u8], at: &mut usize) -> Option<u32> {
    while *at < bytes.len() && b" \t\r\n".contains(&bytes[*at]) {
        *at += 1;
    }
    let start = *at;
    while *at < bytes.len() && bytes[*at].is_ascii_digit() {
        *at += 1;
    }
    std::str::from_utf8(&bytes[start..*at]).ok()?.parse().ok()
}

fn parse(bytes: &[u8]) -> Option<Image<'_>> {
    let mut at = 2;
    let width = number(bytes, &mut at)?;
    let height = number(bytes, &mut at)?;
    let maximum = number(bytes, &mut at)?;
    Some(Image { height, width, wide: maximum >= 256, raster: bytes.get(at + 1..)? })
}

impl Image<'_> {
    fn within(side: u32, at: i32) -> bool {
        -32 <= i64::from(at) && i64::from(at) < i64::from(side) + 32
    }

    fn nearest(side: u32, at: i32) -> usize {
        if at < 0 { 0 } else { (at as u32).min(side - 1) as usize }
    }

    #[inline(never)]
    fn sum_by_place(&self) -> u64 {
        let mut sum = 0u64;
        for row in 0..self.height as i32 {
            for column in 0..self.width as i32 {
                if let Some(sample) = self.read(row, column) {
                    sum = sum.wrapping_add(u64::from(sample));
                }
            }
        }
        sum
    }

    fn read(&self, row: i32, column: i32) -> Option<u16> {
        if !Self::within(self.height, row) || !Self::within(self.width, column) {
            return None;
        }
        let k = Self::nearest(self.height, row) * self.width as usize + Self::nearest(self.width, column);
        Some(if self.wide {
            u16::from(self.raster[2 * k]) * 256 + u16::from(self.raster[2 * k + 1])
        } else {
            u16::from(self.raster[k])
        })
    }

    #[inline(never)]
    fn decoded(&self) -> Vec<u16> {
        if self.wide {
            self.raster.chunks_exact(2).map(|b| u16::from_be_bytes([b[0], b[1]])).collect()
        } else {
            self.raster.iter().map(|b| u16::from(*b)).collect()
        }
    }
}

#[inline(never)]
fn one_pass(bytes: &[u8]) -> u64 {
    bytes.iter().map(|b| u64::from(*b)).sum()
}

fn main() {
    let path = std::env::args().nth(1).expect("an image");
    let start = Instant::now();
    let bytes = std::fs::read(&path).expect("a file");
    println!("read file: {} us", start.elapsed().as_micros());
    let start = Instant::now();
    let sum = one_pass(&bytes);
    println!("one pass: {} us, sum {sum}", start.elapsed().as_micros());
    let image = parse(&bytes).expect("an image");
    let start = Instant::now();
    let sum = image.sum_by_place();
    println!("read by place: {} us, sum {sum}", start.elapsed().as_micros());
    let start = Instant::now();
    let frame = image.decoded();
    let took = start.elapsed().as_micros();
    let sum: u64 = frame.iter().map(|s| u64::from(*s)).sum();
    println!("decode: {took} us, sum {sum}");
}
