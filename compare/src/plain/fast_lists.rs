//! A cut over a cut over a fixed list, written for speed: to time the proved lists against. Loads and stores are of 64
//! bits, marks are counted by words, and sections are found one time for many reads. Widths are known at run time only.

const GROUP: usize = 256;

/// The widths of the two cuts, the upper first, and of the fixed list.
#[derive(Clone, Copy)]
pub struct Widths {
    pub top: u32,
    pub middle: u32,
    pub fixed: u32,
}

/// Where the sections of a cut begin.
#[derive(Clone, Copy)]
struct Sections {
    width: u32,
    count: usize,
    marks: usize,
    directory: usize,
    end: usize,
}

impl Sections {
    /// Those of a cut whose string begins at a byte.
    fn new(width: u32, count: usize, start: usize) -> Sections {
        let marks = start + (width as usize * count).div_ceil(8);
        let directory = marks + count.div_ceil(8);
        Sections { width, count, marks, directory, end: directory + 4 * count.div_ceil(GROUP) }
    }
}

/// Eight bytes from a place on; past the end they are 0.
#[inline(always)]
fn load(bytes: &[u8], at: usize) -> u64 {
    match bytes.get(at..at + 8) {
        Some(word) => u64::from_le_bytes(word.try_into().unwrap()),
        None => load_last(bytes, at),
    }
}

#[cold]
#[inline(never)]
fn load_last(bytes: &[u8], at: usize) -> u64 {
    bytes.iter().skip(at).take(8).enumerate().map(|(i, b)| u64::from(*b) << (8 * i)).sum()
}

/// The number of up to 48 bits at a bit.
#[inline(always)]
fn field(bytes: &[u8], bit: usize, width: u32) -> u64 {
    load(bytes, bit / 8) >> (bit % 8) & ((1 << width) - 1)
}

/// Packs numbers through a word of 64 bits.
struct Pen<'a> {
    out: &'a mut [u8],
    at: usize,
    word: u64,
    held: u32,
}

impl<'a> Pen<'a> {
    fn new(out: &'a mut [u8]) -> Pen<'a> {
        Pen { out, at: 0, word: 0, held: 0 }
    }

    #[inline(always)]
    fn push(&mut self, width: u32, number: u64) {
        self.word |= number << self.held;
        self.held += width;
        if self.held >= 64 {
            self.out[self.at..self.at + 8].copy_from_slice(&self.word.to_le_bytes());
            self.at += 8;
            self.held -= 64;
            self.word = number >> (width - self.held);
        }
    }

    fn finish(self) {
        let left = self.held.div_ceil(8) as usize;
        self.out[self.at..self.at + left].copy_from_slice(&self.word.to_le_bytes()[..left]);
    }
}

/// Writes the string and tells its length; none where a number is too great or the bytes are too few.
#[inline(never)]
pub fn write(widths: Widths, numbers: &[u64], out: &mut [u8]) -> Option<usize> {
    let (upper, both) = (widths.top, widths.top + widths.middle);
    let (mut all, mut marked, mut deep) = (0, 0, 0);
    for &number in numbers {
        all |= number;
        marked += usize::from(number >> upper > 0);
        deep += usize::from(number >> both > 0);
    }
    let top = Sections::new(upper, numbers.len(), 0);
    let middle = Sections::new(widths.middle, marked, top.end);
    let length = middle.end + (widths.fixed as usize * deep).div_ceil(8);
    if numbers.len() > 1 << 20 || all >> both >> widths.fixed > 0 || out.len() < length {
        return None;
    }
    let (mut highs, mut deeper) = (vec![0; numbers.len() + 1], vec![0; marked + 1]);
    write_cut(top, numbers, &mut out[..top.end], &mut highs);
    write_cut(middle, &highs[..marked], &mut out[top.end..middle.end], &mut deeper);
    let mut pen = Pen::new(&mut out[middle.end..length]);
    for &number in &deeper[..deep] {
        pen.push(widths.fixed, number);
    }
    pen.finish();
    Some(length)
}

/// Writes the sections of a cut, and gathers the high parts.
fn write_cut(cut: Sections, numbers: &[u64], out: &mut [u8], highs: &mut [u64]) {
    let lows = (cut.width as usize * cut.count).div_ceil(8);
    let (out, directory) = out.split_at_mut(lows + cut.count.div_ceil(8));
    let (out, marks) = out.split_at_mut(lows);
    let mut pen = Pen::new(out);
    let mut marked = 0;
    for (i, group) in numbers.chunks(64).enumerate() {
        if i % 4 == 0 {
            directory[i..i + 4].copy_from_slice(&(marked as u32).to_le_bytes());
        }
        let mut word = 0;
        for (k, &number) in group.iter().enumerate() {
            let high = number >> cut.width;
            pen.push(cut.width, number & ((1 << cut.width) - 1));
            highs[marked] = high;
            marked += usize::from(high > 0);
            word |= u64::from(high > 0) << k;
        }
        let size = group.len().div_ceil(8);
        marks[8 * i..8 * i + size].copy_from_slice(&word.to_le_bytes()[..size]);
    }
    pen.finish();
}

/// The length of the string, or none where the bytes do not begin with one.
#[inline(never)]
pub fn open(widths: Widths, bytes: &[u8], count: usize) -> Option<usize> {
    let (top, marked) = judge(widths.top, bytes, count, 0)?;
    let (middle, deep) = judge(widths.middle, bytes, marked, top.end)?;
    let end = middle.end + (widths.fixed as usize * deep).div_ceil(8);
    let filled = bytes.len() >= end && no_fill(bytes, end, widths.fixed as usize * deep);
    let whole = filled && (0..deep).all(|i| field(bytes, 8 * middle.end + i * widths.fixed as usize, widths.fixed) > 0);
    let marked = |i: usize| bytes[middle.marks + i / 8] >> (i % 8) & 1 > 0;
    let low = |i: usize| field(bytes, 8 * top.end + i * widths.middle as usize, widths.middle);
    (whole && (0..middle.count).all(|i| marked(i) || low(i) > 0)).then_some(end)
}

/// The sections of a cut and the number of its marks, if its bytes, fill bits and directory are right.
fn judge(width: u32, bytes: &[u8], count: usize, start: usize) -> Option<(Sections, usize)> {
    let cut = Sections::new(width, count, start);
    if bytes.len() < cut.end || !no_fill(bytes, cut.marks, width as usize * count) || !no_fill(bytes, cut.directory, count) {
        return None;
    }
    let marks = &bytes[cut.marks..cut.directory];
    let mut marked = 0;
    for (i, group) in marks.chunks(GROUP / 8).enumerate() {
        let entry = cut.directory + 4 * i;
        if u32::from_le_bytes(bytes[entry..entry + 4].try_into().unwrap()) != marked {
            return None;
        }
        marked += group.chunks(8).map(|word| load(word, 0).count_ones()).sum::<u32>();
    }
    Some((cut, marked as usize))
}

/// Whether the bits of the last byte of a section, which ends at a byte, are 0 behind so many bits.
fn no_fill(bytes: &[u8], end: usize, bits: usize) -> bool {
    bits % 8 == 0 || bytes[end - 1] >> (bits % 8) == 0
}

/// Puts the number at each place in that place; the bytes are those of a string. None where a place is none.
#[inline(never)]
pub fn read_each(widths: Widths, bytes: &[u8], count: usize, places: &mut [u64]) -> Option<()> {
    let top = Sections::new(widths.top, count, 0);
    let middle = Sections::new(widths.middle, marked(bytes, top), top.end);
    if bytes.len() < middle.end {
        return None;
    }
    for place in places {
        let i = *place as usize;
        if i >= count {
            return None;
        }
        *place = read(widths, bytes, top, middle, i);
    }
    Some(())
}

/// All marks of a cut: those before its last group and those in it.
fn marked(bytes: &[u8], cut: Sections) -> usize {
    if cut.count == 0 { 0 } else { rank(bytes, cut, cut.count - 1) + usize::from(mark(bytes, cut, cut.count - 1)) }
}

#[inline(always)]
fn mark(bytes: &[u8], cut: Sections, i: usize) -> bool {
    bytes[cut.marks + i / 8] >> (i % 8) & 1 > 0
}

/// The number of 1 marks before a place: the entry of its group, and up to four words of marks.
#[inline(always)]
fn rank(bytes: &[u8], cut: Sections, i: usize) -> usize {
    let group = i / GROUP;
    let entry = cut.directory + 4 * group;
    let mut ones = u32::from_le_bytes(bytes[entry..entry + 4].try_into().unwrap());
    let first = cut.marks + group * (GROUP / 8);
    for k in 0..i % GROUP / 64 {
        ones += load(bytes, first + 8 * k).count_ones();
    }
    let last = load(bytes, first + 8 * (i % GROUP / 64));
    (ones + (last & ((1 << (i % 64)) - 1)).count_ones()) as usize
}

#[inline(always)]
fn read(widths: Widths, bytes: &[u8], top: Sections, middle: Sections, i: usize) -> u64 {
    let low = field(bytes, i * widths.top as usize, widths.top);
    if !mark(bytes, top, i) {
        return low;
    }
    let j = rank(bytes, top, i);
    let next = field(bytes, 8 * top.end + j * widths.middle as usize, widths.middle);
    if !mark(bytes, middle, j) {
        return next << widths.top | low;
    }
    let k = rank(bytes, middle, j);
    let high = field(bytes, 8 * middle.end + k * widths.fixed as usize, widths.fixed);
    (high << widths.middle | next) << widths.top | low
}
