//! The cipher of Annex C, one clock at a time.

use crate::bits;
use crate::cipher::{Cipher, Mac};

#[derive(Clone, Debug, PartialEq, Eq)]
pub struct Grain {
    pub b: [bool; 128],
    pub s: [bool; 128],
}

impl Grain {
    /// "y = b12·s8 + s13·s20 + b95·s42 + s60·s79 + b12·b95·s94 + s93 + b2 + b15
    /// + b36 + b45 + b64 + b73 + b89"
    fn y(&self) -> bool {
        let b = &self.b;
        let s = &self.s;
        (b[12] & s[8])
            ^ (s[13] & s[20])
            ^ (b[95] & s[42])
            ^ (s[60] & s[79])
            ^ (b[12] & b[95] & s[94])
            ^ s[93]
            ^ b[2]
            ^ b[15]
            ^ b[36]
            ^ b[45]
            ^ b[64]
            ^ b[73]
            ^ b[89]
    }

    /// "new s127 = s0+s7+s38+s70+s81+s96"
    fn new_s127(&self) -> bool {
        let s = &self.s;
        s[0] ^ s[7] ^ s[38] ^ s[70] ^ s[81] ^ s[96]
    }

    /// "new b127 = s0 + b0+b26+b56+b91+b96 + b3b67 + b11b13 + b17b18 + b27b59 +
    /// b40b48 + b61b65 + b68b84 + b88b92b93b95 + b22b24b25 + b70b78b82"
    fn new_b127(&self) -> bool {
        let b = &self.b;
        self.s[0]
            ^ b[0]
            ^ b[26]
            ^ b[56]
            ^ b[91]
            ^ b[96]
            ^ (b[3] & b[67])
            ^ (b[11] & b[13])
            ^ (b[17] & b[18])
            ^ (b[27] & b[59])
            ^ (b[40] & b[48])
            ^ (b[61] & b[65])
            ^ (b[68] & b[84])
            ^ (b[88] & b[92] & b[93] & b[95])
            ^ (b[22] & b[24] & b[25])
            ^ (b[70] & b[78] & b[82])
    }

    /// "the rest shifts down by one"
    fn shift(&mut self, new_b127: bool, new_s127: bool) {
        for i in 0..127 {
            self.b[i] = self.b[i + 1];
            self.s[i] = self.s[i + 1];
        }
        self.b[127] = new_b127;
        self.s[127] = new_s127;
    }

    /// "One clock gives"
    fn clock(&mut self) -> bool {
        let y = self.y();
        self.shift(self.new_b127(), self.new_s127());
        y
    }

    /// "clocks with y added into both new bits"
    fn start_clock(&mut self) {
        let y = self.y();
        self.shift(self.new_b127() ^ y, self.new_s127() ^ y);
    }

    /// "first a keystream bit, then a MAC bit"
    fn pair(&mut self) -> (bool, bool) {
        let keystream = self.clock();
        let mac = self.clock();
        (keystream, mac)
    }
}

/// Accumulator and register as lists of w bits.
struct MacBits {
    accumulator: Vec<bool>,
    register: Vec<bool>,
}

impl MacBits {
    fn open(mac: &Mac) -> MacBits {
        MacBits {
            accumulator: bits::from_number(mac.accumulator, mac.width as usize),
            register: bits::from_number(mac.register, mac.width as usize),
        }
    }

    /// "the accumulator has the register added if the bit is 1; the register
    /// drops its first bit and takes the pair's MAC bit at its end"
    fn feed(&mut self, message: bool, mac: bool) {
        if message {
            for j in 0..self.accumulator.len() {
                self.accumulator[j] ^= self.register[j];
            }
        }
        self.register.remove(0);
        self.register.push(mac);
    }

    fn close(self, mac: &mut Mac) {
        mac.accumulator = bits::to_number(&self.accumulator);
        mac.register = bits::to_number(&self.register);
    }
}

fn to_register(halves: [u64; 2]) -> [bool; 128] {
    let mut register = [false; 128];
    for i in 0..64 {
        register[i] = (halves[0] >> (63 - i)) & 1 == 1;
        register[64 + i] = (halves[1] >> (63 - i)) & 1 == 1;
    }
    register
}

fn to_halves(register: &[bool; 128]) -> [u64; 2] {
    [bits::to_number(&register[0..64]), bits::to_number(&register[64..128])]
}

impl Cipher for Grain {
    fn from_halves(b: [u64; 2], s: [u64; 2]) -> Grain {
        Grain { b: to_register(b), s: to_register(s) }
    }

    fn halves(&self) -> ([u64; 2], [u64; 2]) {
        (to_halves(&self.b), to_halves(&self.s))
    }

    /// "b = key. s0 = 1 always; s1..s95 are bits 1..95 of the reader's 48-bit
    /// number followed by the tag's; s96 = 1 for TA and MA, s97 = 1 for IA and
    /// MA, else 0; s98..s126 = 1; s127 = 0."
    fn set_up(key: &[u8; 16], reader: u64, tag: u64, ta: bool, ia: bool) -> Grain {
        let mut b = [false; 128];
        b.copy_from_slice(&bits::from_bytes(key, 128));
        let mut numbers = bits::from_number(reader, 48);
        numbers.extend(bits::from_number(tag, 48));
        let mut s = [false; 128];
        s[0] = true;
        s[1..96].copy_from_slice(&numbers[1..96]);
        s[96] = ta;
        s[97] = ia;
        for place in &mut s[98..127] {
            *place = true;
        }
        s[127] = false;
        Grain { b, s }
    }

    fn start(key: &[u8; 16], reader: u64, tag: u64, ta: bool, ia: bool) -> Grain {
        let mut grain = Grain::set_up(key, reader, tag, ta, ia);
        for _ in 0..256 {
            grain.start_clock();
        }
        grain
    }

    fn outputs(&mut self, count: usize) -> Vec<bool> {
        (0..count).map(|_| self.clock()).collect()
    }

    fn pairs(&mut self, count: usize) -> (Vec<bool>, Vec<bool>) {
        (0..count).map(|_| self.pair()).unzip()
    }

    fn fill(&mut self, width: u8) -> Mac {
        let accumulator = self.outputs(width as usize);
        let register = self.outputs(width as usize);
        Mac {
            width,
            accumulator: bits::to_number(&accumulator),
            register: bits::to_number(&register),
        }
    }

    fn keystream(&mut self, count: usize) -> Vec<bool> {
        (0..count).map(|_| self.pair().0).collect()
    }

    /// "for each bit, and then for one padding bit 1"; "Otherwise keystream
    /// bits are dropped, and the padding's always."
    fn mac(&mut self, mac: &mut Mac, message: &[bool]) {
        let mut state = MacBits::open(mac);
        for &bit in message {
            let (_, mac_bit) = self.pair();
            state.feed(bit, mac_bit);
        }
        let (_, mac_bit) = self.pair();
        state.feed(true, mac_bit);
        state.close(mac);
    }

    fn encrypt(&mut self, mac: &mut Mac, plain: &[bool]) -> Vec<bool> {
        let mut state = MacBits::open(mac);
        let mut encrypted = Vec::new();
        for &bit in plain {
            let (keystream, mac_bit) = self.pair();
            encrypted.push(bit ^ keystream);
            state.feed(bit ^ keystream, mac_bit);
        }
        let (_, mac_bit) = self.pair();
        state.feed(true, mac_bit);
        state.close(mac);
        encrypted
    }

    fn decrypt(&mut self, mac: &mut Mac, encrypted: &[bool]) -> Vec<bool> {
        let mut state = MacBits::open(mac);
        let mut plain = Vec::new();
        for &bit in encrypted {
            let (keystream, mac_bit) = self.pair();
            plain.push(bit ^ keystream);
            state.feed(bit, mac_bit);
        }
        let (_, mac_bit) = self.pair();
        state.feed(true, mac_bit);
        state.close(mac);
        plain
    }
}
