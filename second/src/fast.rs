//! The cipher of Annex C, up to 32 clocks in one move: "the last 31 bits of the
//! shift registers ... are not used in the respective feedback function or in
//! the input to the pre-output function". Bit 0 of a register is the highest.

use crate::bits;
use crate::cipher::{Cipher, Mac};

#[derive(Clone, Debug, PartialEq, Eq)]
pub struct Fast {
    pub b: u128,
    pub s: u128,
}

/// The 32 places from `tap` on, the first highest; tap + 31 is at most 127.
fn word(register: u128, tap: u32) -> u32 {
    ((register << tap) >> 96) as u32
}

/// The registers of 32 clocks shifted by `count`, the new bits at the end.
fn shifted(register: u128, new: u32, count: u32) -> u128 {
    (register << count) | (new >> (32 - count)) as u128
}

impl Fast {
    /// Annex C: y of the next 32 clocks.
    fn y(&self) -> u32 {
        let b = |tap| word(self.b, tap);
        let s = |tap| word(self.s, tap);
        (b(12) & s(8))
            ^ (s(13) & s(20))
            ^ (b(95) & s(42))
            ^ (s(60) & s(79))
            ^ (b(12) & b(95) & s(94))
            ^ s(93)
            ^ b(2)
            ^ b(15)
            ^ b(36)
            ^ b(45)
            ^ b(64)
            ^ b(73)
            ^ b(89)
    }

    /// Annex C: the new s127 of the next 32 clocks.
    fn new_s(&self) -> u32 {
        let s = |tap| word(self.s, tap);
        s(0) ^ s(7) ^ s(38) ^ s(70) ^ s(81) ^ s(96)
    }

    /// Annex C: the new b127 of the next 32 clocks.
    fn new_b(&self) -> u32 {
        let b = |tap| word(self.b, tap);
        word(self.s, 0)
            ^ b(0)
            ^ b(26)
            ^ b(56)
            ^ b(91)
            ^ b(96)
            ^ (b(3) & b(67))
            ^ (b(11) & b(13))
            ^ (b(17) & b(18))
            ^ (b(27) & b(59))
            ^ (b(40) & b(48))
            ^ (b(61) & b(65))
            ^ (b(68) & b(84))
            ^ (b(88) & b(92) & b(93) & b(95))
            ^ (b(22) & b(24) & b(25))
            ^ (b(70) & b(78) & b(82))
    }

    /// `count` clocks, 1 to 32; the outputs are the first `count` bits given.
    fn advance(&mut self, count: u32) -> u32 {
        let y = self.y();
        let new_b = self.new_b();
        let new_s = self.new_s();
        self.b = shifted(self.b, new_b, count);
        self.s = shifted(self.s, new_s, count);
        y
    }

    /// 32 of the "256 clocks with y added into both new bits".
    fn start_move(&mut self) {
        let y = self.y();
        let new_b = self.new_b() ^ y;
        let new_s = self.new_s() ^ y;
        self.b = shifted(self.b, new_b, 32);
        self.s = shifted(self.s, new_s, 32);
    }

    /// The next w outputs as a number, w being 32 or 64.
    fn number(&mut self, width: u8) -> u64 {
        let mut number = 0;
        for _ in 0..width / 32 {
            number = (number << 32) | self.advance(32) as u64;
        }
        number
    }

    /// Pairs taken from 32 outputs at a time, handed on one by one.
    fn each_pair(&mut self, count: usize, mut take: impl FnMut(usize, bool, bool)) {
        let mut taken = 0;
        while taken < count {
            let now = (count - taken).min(16);
            let y = self.advance(2 * now as u32);
            for j in 0..now {
                let keystream = (y >> (31 - 2 * j)) & 1 == 1;
                let mac = (y >> (30 - 2 * j)) & 1 == 1;
                take(taken + j, keystream, mac);
            }
            taken += now;
        }
    }
}

/// "the accumulator has the register added if the bit is 1; the register drops
/// its first bit and takes the pair's MAC bit at its end"
fn feed(mac: &mut Mac, message: bool, mac_bit: bool) {
    if message {
        mac.accumulator ^= mac.register;
    }
    let all = if mac.width == 64 { u64::MAX } else { (1 << mac.width) - 1 };
    mac.register = ((mac.register << 1) | mac_bit as u64) & all;
}

fn join(halves: [u64; 2]) -> u128 {
    ((halves[0] as u128) << 64) | halves[1] as u128
}

fn split(register: u128) -> [u64; 2] {
    [(register >> 64) as u64, register as u64]
}

impl Cipher for Fast {
    fn from_halves(b: [u64; 2], s: [u64; 2]) -> Fast {
        Fast { b: join(b), s: join(s) }
    }

    fn halves(&self) -> ([u64; 2], [u64; 2]) {
        (split(self.b), split(self.s))
    }

    /// "the set 6 start of s (91223344556677 8899AABBCC FFFFFFFE)": the two
    /// numbers, the two method bits, 29 ones and a zero; s0 = 1 always.
    fn set_up(key: &[u8; 16], reader: u64, tag: u64, ta: bool, ia: bool) -> Fast {
        let methods = ((ta as u128) << 31) | ((ia as u128) << 30);
        let numbers = ((reader as u128) << 80) | ((tag as u128) << 32);
        Fast { b: u128::from_be_bytes(*key), s: (1 << 127) | numbers | methods | 0x3FFF_FFFE }
    }

    fn start(key: &[u8; 16], reader: u64, tag: u64, ta: bool, ia: bool) -> Fast {
        let mut fast = Fast::set_up(key, reader, tag, ta, ia);
        for _ in 0..8 {
            fast.start_move();
        }
        fast
    }

    fn outputs(&mut self, count: usize) -> Vec<bool> {
        let mut outputs = Vec::with_capacity(count);
        while outputs.len() < count {
            let now = (count - outputs.len()).min(32);
            let y = self.advance(now as u32);
            outputs.extend(&bits::from_number(y as u64, 32)[..now]);
        }
        outputs
    }

    fn pairs(&mut self, count: usize) -> (Vec<bool>, Vec<bool>) {
        let mut keystream = Vec::with_capacity(count);
        let mut mac = Vec::with_capacity(count);
        self.each_pair(count, |_, k, m| {
            keystream.push(k);
            mac.push(m);
        });
        (keystream, mac)
    }

    fn fill(&mut self, width: u8) -> Mac {
        let accumulator = self.number(width);
        let register = self.number(width);
        Mac { width, accumulator, register }
    }

    fn keystream(&mut self, count: usize) -> Vec<bool> {
        self.pairs(count).0
    }

    /// "L+1 pairs are used."
    fn mac(&mut self, mac: &mut Mac, message: &[bool]) {
        self.each_pair(message.len() + 1, |i, _, mac_bit| {
            let bit = if i < message.len() { message[i] } else { true };
            feed(mac, bit, mac_bit);
        });
    }

    fn encrypt(&mut self, mac: &mut Mac, plain: &[bool]) -> Vec<bool> {
        let mut encrypted = Vec::with_capacity(plain.len());
        self.each_pair(plain.len() + 1, |i, keystream, mac_bit| {
            if i < plain.len() {
                encrypted.push(plain[i] ^ keystream);
                feed(mac, plain[i] ^ keystream, mac_bit);
            } else {
                feed(mac, true, mac_bit);
            }
        });
        encrypted
    }

    fn decrypt(&mut self, mac: &mut Mac, encrypted: &[bool]) -> Vec<bool> {
        let mut plain = Vec::with_capacity(encrypted.len());
        self.each_pair(encrypted.len() + 1, |i, keystream, mac_bit| {
            if i < encrypted.len() {
                plain.push(encrypted[i] ^ keystream);
                feed(mac, encrypted[i], mac_bit);
            } else {
                feed(mac, true, mac_bit);
            }
        });
        plain
    }
}
