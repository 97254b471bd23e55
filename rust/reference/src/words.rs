//! Tables as words.
//!
//! Entry m of a table is bit 63 - m mod 64 of word m div 64, so that the bytes of the words, highest first, are the
//! packed table. A table has W words: 4 with 8 inputs, 2 with 7, else 1. With fewer than six inputs the bits
//! after entry N - 1 may hold anything, mostly the table again; packing leaves them out.

use std::array::from_fn;

/// A table of at most 8 inputs; words that it doesn't need are 0.
pub type Table = [u64; 4];

/// The entries of the first six variables in a word.
const VARIABLES: [u64; 6] = [
    0x5555_5555_5555_5555,
    0x3333_3333_3333_3333,
    0x0f0f_0f0f_0f0f_0f0f,
    0x00ff_00ff_00ff_00ff,
    0x0000_ffff_0000_ffff,
    0x0000_0000_ffff_ffff,
];

/// The number of bytes of a packed table.
pub(crate) fn packed_size(inputs: usize) -> usize {
    (1usize << inputs).div_ceil(8)
}

/// The bits of a packed table's last byte that hold no entry.
pub(crate) fn spare_bits(inputs: usize) -> u8 {
    if inputs < 3 {
        0xff >> (1 << inputs)
    } else {
        0
    }
}

/// Writes a table's entries into bytes, as many as a packed table has.
pub(crate) fn pack<const W: usize>(inputs: usize, words: &[u64; W], out: &mut [u8]) {
    for (eight, word) in out.chunks_mut(8).zip(words) {
        eight.copy_from_slice(&word.to_be_bytes()[..eight.len()]);
    }
    out[0] &= !spare_bits(inputs);
}

/// The table with the halves of variable i exchanged: entry m is entry m xor 2^i of the one given.
#[inline]
pub(crate) fn exchange<const W: usize>(words: &[u64; W], variable: usize) -> [u64; W] {
    if variable < 6 {
        let (ones, shift) = (VARIABLES[variable], 1 << variable);
        words.map(|word| (word & ones) << shift | word >> shift & ones)
    } else {
        // A table has a second half only if it has the word for it.
        let step = 1 << (variable - 6);
        from_fn(|w| words[(w ^ step) % W])
    }
}

/// Each entry becomes the xor of the entries whose set bits are all set in its number. Twice gives the first back.
#[inline]
pub(crate) fn xor_sums(inputs: usize, words: &mut Table) {
    for (variable, ones) in VARIABLES.iter().enumerate().take(inputs) {
        for word in words.iter_mut() {
            *word ^= *word >> (1 << variable) & ones;
        }
    }
    if inputs > 6 {
        words[1] ^= words[0];
        words[3] ^= words[2];
    }
    if inputs > 7 {
        words[2] ^= words[0];
        words[3] ^= words[1];
    }
}

/// All entries 0 or all 1.
pub(crate) fn level<const W: usize>(level: bool) -> [u64; W] {
    [0u64.wrapping_sub(level.into()); W]
}

/// The entries of a variable, complemented where the polarity has a 1.
#[inline]
pub(crate) fn variable<const W: usize>(variable: usize, polarity: usize) -> [u64; W] {
    let complement = level::<1>(polarity >> variable & 1 == 1)[0];
    from_fn(|w| match VARIABLES.get(variable) {
        Some(ones) => ones ^ complement,
        None => level::<1>(w >> (variable - 6) & 1 == 1)[0] ^ complement,
    })
}
