//! The reader machine.

use crate::bits;
use crate::book;
use crate::cipher::{Cipher, Mac};
use crate::order::{closes, hand_back, Found, REPLY_BYTES};
use crate::payloads::{self, COMM, IA, MA, SECURE, TA};

/// "States: idle, step 0 sent, step 1 sent (IA, MA), open, closed."
#[derive(Clone, Copy, Debug, PartialEq, Eq)]
pub enum Stage {
    Idle,
    Step0Sent,
    Step1Sent,
    Open,
    Closed,
}

pub const STAGES: [Stage; 5] =
    [Stage::Idle, Stage::Step0Sent, Stage::Step1Sent, Stage::Open, Stage::Closed];

/// Everything the reader holds from call to call.
#[derive(Clone, Debug, PartialEq)]
pub struct Reader<C: Cipher> {
    pub stage: Stage,
    pub method: u8,
    pub options: u8,
    pub keyid: u8,
    pub number: u64,
    pub mac: Mac,
    pub cipher: C,
}

impl<C: Cipher> Reader<C> {
    fn empty(stage: Stage) -> Self {
        Reader {
            stage,
            method: 0,
            options: 0,
            keyid: 0,
            number: 0,
            mac: Mac::default(),
            cipher: C::from_halves([0; 2], [0; 2]),
        }
    }

    /// "Reset makes it idle."
    pub fn fresh() -> Self {
        Self::empty(Stage::Idle)
    }

    /// "Reset is never refused: it answers 0 with no bits, whatever the buffer's
    /// length."
    pub fn reset(&mut self, reply: &mut [u8]) -> (u8, usize) {
        *self = Self::fresh();
        hand_back(reply, 0, &[])
    }

    /// "A closed reader keeps nothing but that it is closed."
    fn close(&mut self) {
        *self = Self::empty(Stage::Closed);
    }

    /// "At the reader: options are 4 or more; width, accumulator and register
    /// likewise, the width being 0 before step 1 sent or open; method above 2;
    /// number at or above 2^48; step 1 sent under TA; idle or closed with
    /// anything but zeros."
    pub fn earns_8(&self) -> bool {
        let running = self.stage == Stage::Step1Sent || self.stage == Stage::Open;
        let empty = self.stage == Stage::Idle || self.stage == Stage::Closed;
        let width = if running { payloads::width(self.options) } else { 0 };
        let limit = 1u128 << width;
        self.options >= 4
            || self.mac.width != width
            || self.mac.accumulator as u128 >= limit
            || self.mac.register as u128 >= limit
            || self.method > 2
            || self.number >= payloads::NUMBER_LIMIT
            || (self.stage == Stage::Step1Sent && self.method == TA)
            || (empty && !self.holds_zeros())
    }

    fn holds_zeros(&self) -> bool {
        self.method == 0
            && self.options == 0
            && self.keyid == 0
            && self.number == 0
            && self.mac == Mac::default()
            && self.cipher.halves() == ([0; 2], [0; 2])
    }

    /// "Begin (only when idle, else 9): method, options, KeyID, number, book".
    pub fn begin(
        &mut self,
        method: u8,
        options: u8,
        keyid: u8,
        number: u64,
        book: &[u8],
        reply: &mut [u8],
    ) -> (u8, usize) {
        let key = book::search(book, keyid);
        let found = Found {
            state: self.earns_8(),
            buffer: reply.len() < REPLY_BYTES,
            input: number >= payloads::NUMBER_LIMIT,
            book: !book::sound(book),
            work: self.stage != Stage::Idle,
            keyid: key.is_none(),
            // "A method of 3 or more, or options of 4 or more, is 4."
            support: method >= 3 || options >= 4,
            ..Found::default()
        };
        let (answer, bits) = match (found.refusal(), key) {
            (None, Some(key)) => (0, self.step_0(method, options, keyid, number, key)),
            // "closed (begin: kept)"
            (refusal, _) => (refusal.expect("refused with 5"), Vec::new()),
        };
        hand_back(reply, answer, &bits)
    }

    /// "gives the step 0 command and stores the first four until closed or reset,
    /// with the key as b and s zero"
    fn step_0(
        &mut self,
        method: u8,
        options: u8,
        keyid: u8,
        number: u64,
        key: [u8; 16],
    ) -> Vec<bool> {
        let halves = bits::from_bytes(&key, 128);
        let b = [bits::field(&halves, 0, 64), bits::field(&halves, 64, 64)];
        self.stage = Stage::Step0Sent;
        self.method = method;
        self.options = options;
        self.keyid = keyid;
        self.number = number;
        self.cipher = C::from_halves(b, [0; 2]);
        // "Options are 0000 for IA and MA."
        let sent = if method == TA { options } else { 0 };
        payloads::auth_command(method, 0, sent, keyid, &bits::from_number(number, 48))
    }

    /// "Then it takes the response."
    pub fn response(&mut self, payload: &[u8], count: usize, reply: &mut [u8]) -> (u8, usize) {
        let bits = bits::from_bytes(payload, count);
        let first = self.stage == Stage::Step0Sent;
        let length = if first { self.first_wrong(&bits) } else { self.second_wrong(&bits) };
        let features = bits::field(&bits, 0, 8) as u8;
        // "Received features must support the chosen options, else 4"; document 02,
        // Req 01: "The reader is to hold them against the method too: TA needs bit
        // 0, IA bit 1, and MA none."
        let supported = payloads::method_supported(self.method, features)
            && payloads::options_supported(self.options, features);
        let found = Found {
            state: self.earns_8(),
            buffer: reply.len() < REPLY_BYTES,
            input: bits::beyond(payload, count),
            work: !first && self.stage != Stage::Step1Sent,
            length,
            support: first && !supported,
            ..Found::default()
        };
        let (answer, bits) = match found.refusal() {
            Some(refusal) => (refusal, Vec::new()),
            None if first => self.take_first(&bits),
            None => self.take_second(&bits),
        };
        self.finish(answer, &bits, reply)
    }

    /// "TA 120 bits (features 8, tag's number 48, 64 keystream bits); IA and MA
    /// step 0, 56 bits"
    fn first_wrong(&self, payload: &[bool]) -> bool {
        payload.len() != if self.method == TA { 120 } else { 56 }
    }

    /// "IA step 1, one bit"; "In MA a one-bit answer with status 0, or a 65-bit
    /// one with status 1, is 6."
    fn second_wrong(&self, payload: &[bool]) -> bool {
        let status = bits::field(payload, 0, 1);
        if self.method == IA {
            payload.len() != 1
        } else {
            match payload.len() {
                1 => status == 0,
                65 => status == 1,
                _ => true,
            }
        }
    }

    /// 10.2.4, 10.3.4 and 10.4.4.
    fn take_first(&mut self, payload: &[bool]) -> (u8, Vec<bool>) {
        let (b, _) = self.cipher.halves();
        let mut key = [0; 16];
        key[..8].copy_from_slice(&b[0].to_be_bytes());
        key[8..].copy_from_slice(&b[1].to_be_bytes());
        self.cipher = C::start(
            &key,
            self.number,
            bits::field(payload, 8, 48),
            payloads::tag_authenticated(self.method),
            payloads::reader_authenticated(self.method),
        );
        self.mac = self.cipher.fill(payloads::width(self.options));
        let keystream = self.cipher.keystream(64);
        if self.method == TA {
            if payload[56..120] != keystream {
                return (10, Vec::new());
            }
            self.stage = Stage::Open;
            // "the last authentication response, accepted by the reader, has a
            // reply of no bits"
            return (0, Vec::new());
        }
        self.stage = Stage::Step1Sent;
        (0, payloads::auth_command(self.method, 1, self.options, self.keyid, &keystream))
    }

    /// 10.3.5 and 10.4.6. "TA and MA compare the tag's 64 bits; IA accepts status
    /// 0. Status 1 or unequal bits are 10."
    fn take_second(&mut self, payload: &[bool]) -> (u8, Vec<bool>) {
        if payload[0] {
            return (10, Vec::new());
        }
        if self.method == MA && payload[1..65] != self.cipher.keystream(64) {
            return (10, Vec::new());
        }
        self.stage = Stage::Open;
        (0, Vec::new())
    }

    /// "secure in MA only and if enabled"
    fn kind_open(&self, kind: u8) -> bool {
        kind != SECURE || (self.method == MA && payloads::secure(self.options))
    }

    /// "Afterwards it sends in IA and MA"; "other calls are 9".
    pub fn send(&mut self, kind: u8, data: &[u8], count: usize, reply: &mut [u8]) -> (u8, usize) {
        let sends = self.stage == Stage::Open && self.method != TA && self.kind_open(kind);
        let found = Found {
            state: self.earns_8(),
            buffer: reply.len() < REPLY_BYTES,
            input: bits::beyond(data, count)
                || (kind != COMM && kind != SECURE)
                || count > payloads::MOST_DATA_BITS,
            work: !sends,
            ..Found::default()
        };
        let (answer, bits) = match found.refusal() {
            Some(refusal) => (refusal, Vec::new()),
            None => {
                let data = bits::from_bytes(data, count);
                let secret = kind == SECURE;
                (0, payloads::seal(&mut self.cipher, &mut self.mac, secret, &data))
            }
        };
        self.finish(answer, &bits, reply)
    }

    /// "receives in TA and MA"; "other calls are 9".
    pub fn receive(
        &mut self,
        kind: u8,
        payload: &[u8],
        count: usize,
        reply: &mut [u8],
    ) -> (u8, usize) {
        let bits = bits::from_bytes(payload, count);
        let receives = self.stage == Stage::Open && self.method != IA && self.kind_open(kind);
        let found = Found {
            state: self.earns_8(),
            buffer: reply.len() < REPLY_BYTES,
            input: bits::beyond(payload, count) || (kind != COMM && kind != SECURE),
            work: !receives,
            length: payloads::message_wrong(&bits, self.mac.width),
            ..Found::default()
        };
        let (answer, bits) = match found.refusal() {
            Some(refusal) => (refusal, Vec::new()),
            None => {
                let secret = kind == SECURE;
                match payloads::unseal(&mut self.cipher, &mut self.mac, secret, &bits) {
                    Some(plain) => (0, plain),
                    None => (10, Vec::new()),
                }
            }
        };
        self.finish(answer, &bits, reply)
    }

    fn finish(&mut self, answer: u8, bits: &[bool], reply: &mut [u8]) -> (u8, usize) {
        if closes(answer) {
            self.close();
        }
        hand_back(reply, answer, bits)
    }

    /// The whole state as numbers, in the order of `FIELDS`.
    pub fn numbers(&self) -> [u64; 12] {
        let (b, s) = self.cipher.halves();
        [
            self.stage as u64,
            self.method as u64,
            self.options as u64,
            self.keyid as u64,
            self.number,
            self.mac.width as u64,
            b[0],
            b[1],
            s[0],
            s[1],
            self.mac.accumulator,
            self.mac.register,
        ]
    }

    /// The state of these numbers, or nothing where one is beyond its field.
    pub fn from_numbers(numbers: &[u64; 12]) -> Option<Self> {
        let byte = |place: usize| u8::try_from(numbers[place]).ok();
        Some(Reader {
            stage: *STAGES.get(usize::try_from(numbers[0]).ok()?)?,
            method: byte(1)?,
            options: byte(2)?,
            keyid: byte(3)?,
            number: numbers[4],
            mac: Mac { width: byte(5)?, accumulator: numbers[10], register: numbers[11] },
            cipher: C::from_halves([numbers[6], numbers[7]], [numbers[8], numbers[9]]),
        })
    }
}

/// What the numbers of a reader's state stand for.
pub const FIELDS: [&str; 12] = [
    "stage",
    "method",
    "options",
    "keyid",
    "number",
    "width",
    "b first half",
    "b second half",
    "s first half",
    "s second half",
    "accumulator",
    "register",
];
