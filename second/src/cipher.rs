//! What both forms of the cipher give to the machines above them.

use std::fmt::Debug;

/// "After that w is 32 or 64. The next w outputs are the accumulator, the next
/// w the shift register." The first bit is the highest of the lowest w bits.
#[derive(Clone, Copy, Debug, PartialEq, Eq, Default)]
pub struct Mac {
    pub width: u8,
    pub accumulator: u64,
    pub register: u64,
}

pub trait Cipher: Clone + PartialEq + Debug {
    /// The registers b and s from two numbers each, the first half first.
    fn from_halves(b: [u64; 2], s: [u64; 2]) -> Self;

    /// The registers b and s as two numbers each, the first half first.
    fn halves(&self) -> ([u64; 2], [u64; 2]);

    /// Clause 9: both registers as they are filled, before the 256 clocks.
    fn set_up(key: &[u8; 16], reader: u64, tag: u64, ta: bool, ia: bool) -> Self;

    /// "Then 256 clocks with y added into both new bits."
    fn start(key: &[u8; 16], reader: u64, tag: u64, ta: bool, ia: bool) -> Self;

    /// The next `count` outputs y.
    fn outputs(&mut self, count: usize) -> Vec<bool>;

    /// "From there outputs go in pairs: first a keystream bit, then a MAC bit."
    /// The keystream bits and the MAC bits of the next `count` pairs.
    fn pairs(&mut self, count: usize) -> (Vec<bool>, Vec<bool>);

    /// "The next w outputs are the accumulator, the next w the shift register."
    fn fill(&mut self, width: u8) -> Mac;

    /// "During authentication the MAC bits are thrown away and the register
    /// doesn't move."
    fn keystream(&mut self, count: usize) -> Vec<bool>;

    /// "MAC of L message bits"; the MAC is the accumulator left behind.
    fn mac(&mut self, mac: &mut Mac, message: &[bool]);

    /// "Secure messages add the keystream bit to each data bit, and the MAC is
    /// over the encrypted bits." Gives the encrypted bits.
    fn encrypt(&mut self, mac: &mut Mac, plain: &[bool]) -> Vec<bool>;

    /// The same for encrypted bits; gives the plain bits.
    fn decrypt(&mut self, mac: &mut Mac, encrypted: &[bool]) -> Vec<bool>;
}
