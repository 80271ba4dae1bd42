//! Number lists: a fixed list under up to four cuts. Strings are made and taken apart bit by bit.

/// The most numbers of a list.
pub const MOST_NUMBERS: usize = 1 << 20;
/// The most cuts of a pile.
pub const MOST_CUTS: usize = 4;

#[derive(Clone, Copy, PartialEq, Eq, Debug)]
pub enum Refusal {
    /// 5: fewer bytes than the string needs.
    NoRoom,
    /// 10: the width of the fixed list or of a cut.
    Width,
    /// 11: a reach, a count, a number or a place.
    Range,
    /// 13: the first fault of bytes; level 0 is the top.
    Faulty { level: u64, test: u64 },
}

/// A fixed list of some width and the widths of the cuts over it, the lowest first.
#[derive(Clone, PartialEq, Eq, Debug)]
pub struct Pile {
    fixed: u32,
    cuts: Vec<u32>,
}

impl Pile {
    /// Each width and then the reach are tested from the bottom up; a fifth cut is refused in its turn.
    pub fn new(fixed: u32, cuts: &[u32]) -> Result<Pile, Refusal> {
        if !(1..=48).contains(&fixed) {
            return Err(Refusal::Width);
        }
        let mut reach = fixed;
        for (i, &width) in cuts.iter().enumerate() {
            if i == MOST_CUTS {
                return Err(Refusal::Range);
            }
            if !(1..=16).contains(&width) {
                return Err(Refusal::Width);
            }
            reach += width;
            if reach > 64 {
                return Err(Refusal::Range);
            }
        }
        Ok(Pile { fixed, cuts: cuts.to_vec() })
    }

    pub fn reach(&self) -> u32 {
        self.fixed + self.cuts.iter().sum::<u32>()
    }

    /// Puts the string in front, and tells its length.
    pub fn write(&self, numbers: &[u64], out: &mut [u8]) -> Result<usize, Refusal> {
        if numbers.len() > MOST_NUMBERS || numbers.iter().any(|&n| n > ones(self.reach())) {
            return Err(Refusal::Range);
        }
        let string = string(self.fixed, &self.cuts, numbers);
        let front = out.get_mut(..string.len()).ok_or(Refusal::NoRoom)?;
        front.copy_from_slice(&string);
        Ok(string.len())
    }

    /// The length of the string that the bytes begin with, and its numbers.
    pub fn open(&self, bytes: &[u8], count: usize) -> Result<(usize, Vec<u64>), Refusal> {
        if count > MOST_NUMBERS {
            return Err(Refusal::Range);
        }
        opened(self.fixed, &self.cuts, bytes, count, 0)
    }
}

/// The greatest number of so many bits, up to 64.
fn ones(bits: u32) -> u64 {
    u64::MAX >> (64 - bits)
}

fn room(width: u32, count: usize) -> usize {
    (width as usize * count).div_ceil(8)
}

fn packed(width: u32, numbers: &[u64]) -> Vec<u8> {
    let mut bytes = vec![0; room(width, numbers.len())];
    for (i, number) in numbers.iter().enumerate() {
        for k in 0..width as usize {
            let at = i * width as usize + k;
            bytes[at / 8] |= ((number >> k & 1) as u8) << (at % 8);
        }
    }
    bytes
}

fn unpacked(width: u32, bytes: &[u8], count: usize) -> Vec<u64> {
    let bit = |at: usize| u64::from(bytes[at / 8] >> (at % 8) & 1);
    let width = width as usize;
    (0..count).map(|i| (0..width).map(|k| bit(i * width + k) << k).sum()).collect()
}

fn string(fixed: u32, cuts: &[u32], numbers: &[u64]) -> Vec<u8> {
    let Some((&width, below)) = cuts.split_last() else {
        return packed(fixed, numbers);
    };
    let lows: Vec<u64> = numbers.iter().map(|n| n & ones(width)).collect();
    let marks: Vec<u64> = numbers.iter().map(|n| u64::from(*n > ones(width))).collect();
    let highs: Vec<u64> = numbers.iter().map(|n| n >> width).filter(|high| *high > 0).collect();
    [packed(width, &lows), packed(1, &marks), directory(&marks), string(fixed, below, &highs)].concat()
}

/// For each 256 marks begun the number of 1 marks before them.
fn directory(marks: &[u64]) -> Vec<u8> {
    let mut before = 0;
    let mut entry = |group: &[u64]| {
        let entry = before;
        before += group.iter().sum::<u64>() as u32;
        entry.to_le_bytes()
    };
    marks.chunks(256).flat_map(|group| entry(group)).collect()
}

fn opened(fixed: u32, cuts: &[u32], bytes: &[u8], count: usize, level: u64) -> Result<(usize, Vec<u64>), Refusal> {
    let fault = |test| Refusal::Faulty { level, test };
    let Some((&width, below)) = cuts.split_last() else {
        let string = bytes.get(..room(fixed, count)).ok_or(fault(1))?;
        let numbers = unpacked(fixed, string, count);
        return if packed(fixed, &numbers) == string { Ok((string.len(), numbers)) } else { Err(fault(2)) };
    };
    let (lows_end, marks_end) = (room(width, count), room(width, count) + room(1, count));
    let end = marks_end + 4 * count.div_ceil(256);
    if bytes.len() < end {
        return Err(fault(1));
    }
    let (lows, marks) = (unpacked(width, bytes, count), unpacked(1, &bytes[lows_end..], count));
    if packed(width, &lows) != bytes[..lows_end] || packed(1, &marks) != bytes[lows_end..marks_end] {
        return Err(fault(2));
    }
    if directory(&marks) != bytes[marks_end..end] {
        return Err(fault(3));
    }
    let marked = marks.iter().sum::<u64>() as usize;
    let (length, highs) = opened(fixed, below, &bytes[end..], marked, level + 1)?;
    if highs.contains(&0) {
        return Err(fault(4));
    }
    Ok((end + length, joined(width, &lows, &marks, &highs)))
}

/// Each low part under its high part, 0 where there is none.
fn joined(width: u32, lows: &[u64], marks: &[u64], highs: &[u64]) -> Vec<u64> {
    let mut highs = highs.iter();
    let mut high = |mark: u64| if mark == 1 { *highs.next().expect("as many as marks") } else { 0 };
    lows.iter().zip(marks).map(|(low, mark)| high(*mark) << width | low).collect()
}
