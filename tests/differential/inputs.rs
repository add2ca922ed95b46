//! Generated trees and sheets. The same numbers come in every run.

use crate::model::List;

/// A generator of numbers (xorshift).
pub struct Numbers(pub u64);

impl Numbers {
    pub fn next(&mut self) -> u64 {
        self.0 ^= self.0 << 13;
        self.0 ^= self.0 >> 7;
        self.0 ^= self.0 << 17;
        self.0
    }

    /// A number below `end`.
    pub fn below(&mut self, end: usize) -> usize {
        (self.next() % end as u64) as usize
    }

    /// Once in `n` times.
    pub fn once_in(&mut self, n: usize) -> bool {
        self.below(n) == 0
    }
}

/// A term of few letters, so that the same one stands in many lists; seldom a long one or one of any bytes.
pub fn term(numbers: &mut Numbers) -> Vec<u8> {
    if numbers.once_in(20) {
        let length = 1 + numbers.below(32);
        return (0..length).map(|_| 1 + numbers.below(255) as u8).collect();
    }
    let length = 1 + numbers.below(2);
    (0..length).map(|_| b"abcdefgh"[numbers.below(8)]).collect()
}

/// Marks, mostly those with a meaning.
fn marks(numbers: &mut Numbers) -> u32 {
    match numbers.below(4) {
        0 => 0,
        1 => 4,
        2 => numbers.below(8) as u32,
        _ => (numbers.next() as u32) & !3,
    }
}

/// A tree of at most so many lists and entries a list. Seldom a parent is not smaller or a list not in order.
pub fn tree(numbers: &mut Numbers, lists: usize, entries: usize) -> Vec<List> {
    let count = 1 + numbers.below(lists);
    let deep = numbers.once_in(3);
    (0..count)
        .map(|v| {
            let parent = match v {
                0 => 0,
                _ if numbers.once_in(200) => numbers.below(256),
                _ if deep => v - 1,
                _ => numbers.below(v),
            };
            let mut entries: Vec<(Vec<u8>, u32)> = (0..numbers.below(entries + 1))
                .map(|_| (term(numbers), marks(numbers)))
                .collect();
            if !numbers.once_in(200) {
                entries.sort_by(|one, other| one.0.cmp(&other.0));
            }
            List { parent, entries }
        })
        .collect()
}

/// A tree of just so many lists, four below each, with just so many entries each.
pub fn full_tree(numbers: &mut Numbers, lists: usize, entries: usize) -> Vec<List> {
    (0..lists)
        .map(|v| {
            let mut entries: Vec<(Vec<u8>, u32)> = (0..entries)
                .map(|_| (term(numbers), marks(numbers)))
                .collect();
            entries.sort_by(|one, other| one.0.cmp(&other.0));
            List {
                parent: v.saturating_sub(1) / 4,
                entries,
            }
        })
        .collect()
}

/// A sheet of so many lines at most: terms, empty lines, lines of 31 to 34 bytes, zero bytes, a last line with or without
/// its end.
pub fn sheet(numbers: &mut Numbers, lines: usize) -> Vec<u8> {
    let mut sheet = Vec::new();
    for _ in 0..numbers.below(lines + 1) {
        match numbers.below(12) {
            0 => {}
            1 => sheet.extend(vec![b'a'; 31 + numbers.below(4)]),
            2 => sheet.extend([b'a', 0, b'b']),
            3 => sheet.extend([b'a', 13]),
            _ => sheet.extend(term(numbers)),
        }
        sheet.push(10);
    }
    if numbers.once_in(2) {
        sheet.pop();
    }
    sheet
}
