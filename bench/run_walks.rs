//! How fast a picture's text of runs becomes codes and pixel code strings, with nothing else done: for bench/run_walks.sh.
//!
//!     run_walks SCRIPT DEPTH ROUNDS
//!
//! Three walks over the pictures of a script of bench/text_pictures.py, in runs. Each reads the runs (`COUNT*CODE`, parted by spaces)
//! with all their tests, puts their codes in their places, cuts them where a row ends, and appends the strings of the two
//! fields with the least bits (EN 300 743, 7.2.5.2). `csv`, the file, the segments and the packets are left out. Prints the microseconds a picture
//! of the best round, and ends with status 1 where two walks differ. `plain` goes byte by byte; `words` looks at eight bytes at
//! once; `stars` finds the `*` of 64 bytes at a time by vectors. All store unchecked, and the last two read so, which the product does not.
use std::arch::x86_64::{_mm_cmpeq_epi8, _mm_loadu_si128, _mm_movemask_epi8, _mm_set1_epi8, _mm_storeu_si128};
use std::time::Instant;

const WIDTH: usize = 720;
const HEIGHT: usize = 80;
const PIXELS: usize = WIDTH * HEIGHT;
/// Bytes behind texts and codes that a walk may read or write at once.
const SPARE: usize = 64;
const MOST_PIXELS: usize = 2_073_600;

/// So many bits, the last of them lowest.
#[derive(Clone, Copy, Default)]
struct Bits {
    bits: u64,
    count: u32,
}

/// The one code of a run of that length and colour, if there is one.
fn one_code(depth: usize, colour: u64, length: usize) -> Option<Bits> {
    let long = length as u64;
    let (bits, count) = match (depth, colour, length) {
        (2, 0, 1) => (0b0001, 4),
        (2, 0, 2) => (0b00_0001, 6),
        (2, _, 1) => (colour, 2),
        (2, _, 3..=10) => (0b001 << 5 | (long - 3) << 2 | colour, 8),
        (2, _, 12..=27) => (0b00_0010 << 6 | (long - 12) << 2 | colour, 12),
        (2, _, 29..=284) => (0b00_0011 << 10 | (long - 29) << 2 | colour, 16),
        (4, 0, 1) => (0b0000_1100, 8),
        (4, 0, 2) => (0b0000_1101, 8),
        (4, 0, 3..=9) => (long - 2, 8),
        (4, _, 1) => (colour, 4),
        (4, _, 4..=7) => (0b00_0010 << 6 | (long - 4) << 4 | colour, 12),
        (4, 1.., 9) | (4, _, 10..=24) => (0b0000_1110 << 8 | (long - 9) << 4 | colour, 16),
        (4, _, 25..=280) => (0b0000_1111 << 12 | (long - 25) << 4 | colour, 20),
        (8, 0, 1..=127) => (long, 16),
        (8, 1.., 1) => (colour, 8),
        (8, 1.., 3..=127) => ((0x80 | long) << 8 | colour, 24),
        _ => return None,
    };
    Some(Bits { bits, count })
}

/// The count of a run of more than 56 bits, whose bits are the length of its last code: it is put in two parts.
const LONG: u32 = u32::MAX;

/// The least bits of a run, by its colour and its length.
fn least_bits(depth: usize) -> Vec<Bits> {
    let of_colour = |colour: u64| {
        let mut least = vec![(0u32, 0usize, Bits::default())];
        for length in 1..=WIDTH {
            let found = (1..=length).filter_map(|last| {
                let code = one_code(depth, colour, last)?;
                Some((least[length - last].0 + code.count, length - last, code))
            });
            least.push(found.min_by_key(|way| way.0).expect("each length has a code"));
        }
        let whole = |length: usize| {
            let (mut bits, mut at) = (Bits::default(), length);
            while at > 0 {
                let (_, before, code) = least[at];
                if bits.count + code.count > 56 {
                    return Bits { bits: (length - least[length].1) as u64, count: LONG };
                }
                bits = Bits { bits: bits.bits | code.bits << bits.count, count: bits.count + code.count };
                at = before;
            }
            bits
        };
        (0..=WIDTH).map(whole).collect::<Vec<Bits>>()
    };
    (0..1 << depth).flat_map(of_colour).collect()
}

/// A field's strings, and the bits of the last byte that are not in them yet.
struct Field {
    bytes: Vec<u8>,
    length: usize,
    /// The bits that wait are the highest ones, fewer than eight.
    waiting: u64,
    count: u32,
}

impl Field {
    /// Appends at most 56 bits. Eight bytes are stored at once, with no question whether they are full; a field has room for that.
    #[inline(always)]
    fn put(&mut self, bits: Bits) {
        let count = self.count + bits.count;
        self.waiting |= (bits.bits << (63 - bits.count) << 1) >> self.count;
        unsafe { self.bytes.as_mut_ptr().add(self.length).cast::<u64>().write_unaligned(self.waiting.to_be()) };
        self.length += count as usize / 8;
        self.waiting = self.waiting << (count / 8 * 4) << (count / 8 * 4);
        self.count = count % 8;
    }

    fn end_string(&mut self, depth: usize) {
        self.put(Bits { bits: 0, count: if depth == 2 { 6 } else { 2 * depth as u32 } });
        self.put(Bits { bits: 0, count: (8 - self.count) % 8 });
        self.put(Bits { bits: 0xF0, count: 8 });
    }
}

/// What a walk makes of one picture.
struct Picture {
    codes: Vec<u8>,
    fields: [Field; 2],
    filled: usize,
    column: usize,
    row: usize,
}

impl Picture {
    fn new() -> Picture {
        let fields = std::array::from_fn(|_| Field { bytes: vec![0; 4 * PIXELS], length: 0, waiting: 0, count: 0 });
        Picture { codes: vec![0; PIXELS + SPARE], fields, filled: 0, column: 0, row: 0 }
    }

    /// The codes, and the strings of both fields.
    fn told(&self) -> (&[u8], [&[u8]; 2]) {
        (&self.codes[..PIXELS], [0, 1].map(|field| &self.fields[field].bytes[..self.fields[field].length]))
    }

    fn begin(&mut self, depth: usize) {
        for field in &mut self.fields {
            (field.length, field.waiting, field.count) = (0, 0, 0);
        }
        (self.filled, self.column, self.row) = (0, 0, 0);
        self.begin_row(depth);
    }

    fn begin_row(&mut self, depth: usize) {
        let kind = match depth {
            2 => 0x10,
            4 => 0x11,
            _ => 0x12,
        };
        self.fields[self.row & 1].put(Bits { bits: kind, count: 8 });
    }

    /// A run's codes, and its strings in the rows that it goes through; false where it has no room.
    #[inline(always)]
    fn put_run(&mut self, least: &[Bits], depth: usize, count: usize, code: u8) -> bool {
        if self.filled + count > PIXELS {
            return false;
        }
        // Thirty-two pixels at once: what is too much lies in places that are filled later, or spare.
        let mut put = 0;
        loop {
            unsafe {
                let place = self.codes.as_mut_ptr().add(self.filled + put);
                _mm_storeu_si128(place.cast(), _mm_set1_epi8(code as i8));
                _mm_storeu_si128(place.add(16).cast(), _mm_set1_epi8(code as i8));
            }
            put += 32;
            if put >= count {
                break;
            }
        }
        self.filled += count;
        let mut left = count;
        while self.column + left >= WIDTH {
            left -= WIDTH - self.column;
            self.put_in_row(least, WIDTH - self.column, code);
            self.fields[self.row & 1].end_string(depth);
            (self.column, self.row) = (0, self.row + 1);
            if self.row < HEIGHT {
                self.begin_row(depth);
            }
        }
        if left > 0 {
            self.put_in_row(least, left, code);
            self.column += left;
        }
        true
    }

    #[cold]
    fn put_parts(&mut self, least: &[Bits], count: usize, last: usize, code: u8) {
        self.put_in_row(least, count - last, code);
        self.put_in_row(least, last, code);
    }

    #[inline(always)]
    fn put_in_row(&mut self, least: &[Bits], count: usize, code: u8) {
        let field = &mut self.fields[self.row & 1];
        let bits = unsafe { *least.get_unchecked(usize::from(code) * (WIDTH + 1) + count) };
        if bits.count == LONG {
            self.put_parts(least, count, bits.bits as usize, code);
        } else {
            field.put(bits);
        }
    }
}

fn digit(byte: u8) -> u8 {
    match byte {
        b'0'..=b'9' => byte - b'0',
        b'A'..=b'F' => byte - b'A' + 10,
        b'a'..=b'f' => byte - b'a' + 10,
        _ => 255,
    }
}

struct Tables {
    least: Vec<Bits>,
    digits: [u8; 256],
}

/// The run that begins at a place of the text, byte by byte, and where the next one begins.
fn run_at<const DEPTH: usize>(text: &[u8], mut place: usize) -> Option<(usize, u8, usize)> {
    let mut count = 0;
    while *text.get(place)? != b'*' {
        let ones = text[place].wrapping_sub(b'0');
        if ones > 9 || count > MOST_PIXELS {
            return None;
        }
        (count, place) = (10 * count + usize::from(ones), place + 1);
    }
    if count == 0 || count > MOST_PIXELS {
        return None;
    }
    let mut code = digit(*text.get(place + 1)?);
    place += 2;
    if DEPTH == 8 {
        let low = digit(*text.get(place)?);
        if code > 15 || low > 15 {
            return None;
        }
        (code, place) = (16 * code + low, place + 1);
    } else if usize::from(code) >= 1 << DEPTH {
        return None;
    }
    match text.get(place) {
        None | Some(b' ') => Some((count, code, place + 1)),
        Some(_) => None,
    }
}

fn plain<const DEPTH: usize>(tables: &Tables, text: &[u8], picture: &mut Picture) -> bool {
    let mut place = 0;
    while place <= text.len() {
        let Some((count, code, next)) = run_at::<DEPTH>(text, place) else { return false };
        if !picture.put_run(&tables.least, DEPTH, count, code) {
            return false;
        }
        place = next;
    }
    picture.filled == PIXELS
}

/// The code in the first bytes of `rest`, and whether it is none.
#[inline(always)]
fn code_in<const DEPTH: usize>(tables: &Tables, rest: u64) -> (u8, bool) {
    let first = tables.digits[(rest & 255) as usize];
    if DEPTH == 8 {
        let second = tables.digits[(rest >> 8 & 255) as usize];
        (first.wrapping_mul(16) | second, (first | second) > 15)
    } else {
        (first & ((1 << DEPTH) - 1), usize::from(first) >= 1 << DEPTH)
    }
}

fn words<const DEPTH: usize>(tables: &Tables, text: &[u8], picture: &mut Picture) -> bool {
    let digits = if DEPTH == 8 { 2 } else { 1 };
    let mut place = 0;
    while place <= text.len() {
        let word = unsafe { text.as_ptr().add(place).cast::<u64>().read_unaligned() };
        let differs = word ^ 0x2A2A_2A2A_2A2A_2A2A;
        let star = ((differs.wrapping_sub(0x0101_0101_0101_0101) & !differs & 0x8080_8080_8080_8080).trailing_zeros() / 8) as usize;
        let (count, code, next);
        if star == 1 || star == 2 {
            let pair = (word << (8 * (2 - star))) as u32 & 0xFFFF;
            let tens = if star == 2 { (pair & 255).wrapping_sub(48) } else { 0 };
            let ones = (pair >> 8).wrapping_sub(48);
            let rest = word >> (8 * (star + 1));
            let is_none;
            (code, is_none) = code_in::<DEPTH>(tables, rest);
            count = (10 * tens.min(10) + ones.min(10)) as usize;
            next = place + star + 1 + digits + 1;
            let is_cut = (rest >> (8 * digits)) as u8 != b' ' && next <= text.len() || next > text.len() + 1;
            if tens > 9 || ones > 9 || count == 0 || is_none || is_cut {
                return false;
            }
        } else {
            let Some(run) = run_at::<DEPTH>(text, place) else { return false };
            (count, code, next) = run;
        }
        if !picture.put_run(&tables.least, DEPTH, count, code) {
            return false;
        }
        place = next;
    }
    picture.filled == PIXELS
}

fn stars<const DEPTH: usize>(tables: &Tables, text: &[u8], picture: &mut Picture) -> bool {
    let digits = if DEPTH == 8 { 2 } else { 1 };
    let (mut start, mut base) = (0, 0);
    while base < text.len() {
        let mut found = (0..4).fold(0u64, |found, part| unsafe {
            let bytes = _mm_loadu_si128(text.as_ptr().add(base + 16 * part).cast());
            found | u64::from(_mm_movemask_epi8(_mm_cmpeq_epi8(bytes, _mm_set1_epi8(b'*' as i8))) as u32) << (16 * part)
        });
        if text.len() - base < 64 {
            found &= (1 << (text.len() - base)) - 1;
        }
        while found != 0 {
            let star = base + found.trailing_zeros() as usize;
            found &= found - 1;
            if star <= start {
                return false;
            }
            let length = star - start;
            let (count, code, next);
            if length <= 4 {
                // The four bytes before the star, those that are no digits of this count cleared: their pairs, and these together.
                let bytes = unsafe { text.as_ptr().add(star).sub(4).cast::<u32>().read_unaligned() };
                let ones = (bytes ^ 0x3030_3030) & (u32::MAX << (8 * (4 - length)));
                let pairs = ones.wrapping_mul(10).wrapping_add(ones >> 8);
                count = ((pairs & 255) * 100 + (pairs >> 16 & 255)) as usize;
                let rest = unsafe { text.as_ptr().add(star + 1).cast::<u32>().read_unaligned() };
                let is_none;
                (code, is_none) = code_in::<DEPTH>(tables, u64::from(rest));
                next = star + 1 + digits + 1;
                let is_cut = (rest >> (8 * digits)) as u8 != b' ' && next <= text.len() || next > text.len() + 1;
                if (ones.wrapping_add(0x7676_7676) | ones) & 0x8080_8080 != 0 || count == 0 || is_none || is_cut {
                    return false;
                }
            } else {
                let Some(run) = run_at::<DEPTH>(text, start) else { return false };
                (count, code, next) = run;
            }
            if !picture.put_run(&tables.least, DEPTH, count, code) {
                return false;
            }
            start = next;
        }
        base += 64;
    }
    picture.filled == PIXELS && start == text.len() + 1
}

type Walk = fn(&Tables, &[u8], &mut Picture) -> bool;

fn measure<const DEPTH: usize>(script: &[u8], rounds: usize) {
    let mut digits = [255; 256];
    (0..=255).for_each(|byte| digits[usize::from(byte)] = digit(byte));
    let tables = Tables { least: least_bits(DEPTH), digits };
    // CODES of each picture, as places, so that bytes stand before and behind it.
    let mut texts = vec![];
    let mut start = 0;
    for line in script.split(|byte| *byte == b'\n') {
        if line.starts_with(b"picture,") {
            let comma = line.iter().enumerate().filter(|(_, byte)| **byte == b',').nth(4).expect("a picture has six cells").0;
            texts.push((start + comma + 1, start + line.len()));
        }
        start += line.len() + 1;
    }
    let walks: [(&str, Walk); 3] = [("plain", plain::<DEPTH>), ("words", words::<DEPTH>), ("stars", stars::<DEPTH>)];
    let mut pictures: [Picture; 3] = std::array::from_fn(|_| Picture::new());
    for (begin, end) in &texts {
        for ((_, walk), picture) in walks.iter().zip(&mut pictures) {
            picture.begin(DEPTH);
            assert!(walk(&tables, &script[*begin..*end], picture), "a walk refuses a picture");
        }
        assert!(pictures[1..].iter().all(|picture| picture.told() == pictures[0].told()), "two walks differ");
    }
    for ((name, walk), picture) in walks.iter().zip(&mut pictures) {
        let best = (0..rounds).map(|_| {
            let begun = Instant::now();
            for (begin, end) in &texts {
                picture.begin(DEPTH);
                walk(&tables, &script[*begin..*end], picture);
                std::hint::black_box(&mut *picture);
            }
            begun.elapsed().as_secs_f64()
        });
        let best = best.fold(f64::INFINITY, f64::min) / texts.len() as f64 * 1e6;
        println!("{DEPTH} bits, {name}: {best:.1} microseconds a picture");
    }
}

fn main() {
    let words: Vec<String> = std::env::args().collect();
    let [_, path, depth, rounds] = &words[..] else { panic!("run_walks SCRIPT DEPTH ROUNDS") };
    let mut script = std::fs::read(path).expect("the script is read");
    script.extend([b'\n'; SPARE]);
    let rounds = rounds.parse().expect("ROUNDS is a number");
    match depth.as_str() {
        "2" => measure::<2>(&script, rounds),
        "4" => measure::<4>(&script, rounds),
        _ => measure::<8>(&script, rounds),
    }
}
