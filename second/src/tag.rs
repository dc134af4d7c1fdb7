//! The tag machine.

use crate::bits;
use crate::book;
use crate::cipher::{Cipher, Mac};
use crate::order::{closes, hand_back, Found, REPLY_BYTES};
use crate::payloads::{self, AUTH, COMM, IA, MA, SECURE, TA};

#[derive(Clone, Copy, Debug, PartialEq, Eq)]
pub enum Name {
    CsReset,
    Ta1,
    Ia1,
    Ia2,
    Ma1,
    Ma2,
}

pub const NAMES: [Name; 6] = [Name::CsReset, Name::Ta1, Name::Ia1, Name::Ia2, Name::Ma1, Name::Ma2];

impl Name {
    pub fn text(self) -> &'static str {
        match self {
            Name::CsReset => "CS-Reset",
            Name::Ta1 => "TA.1",
            Name::Ia1 => "IA.1",
            Name::Ia2 => "IA.2",
            Name::Ma1 => "MA.1",
            Name::Ma2 => "MA.2",
        }
    }
}

/// Everything the tag holds from call to call.
#[derive(Clone, Debug, PartialEq)]
pub struct Tag<C: Cipher> {
    pub name: Name,
    pub init: bool,
    pub ta: bool,
    pub ia: bool,
    pub error: bool,
    pub keyid: u8,
    pub options: u8,
    pub mac: Mac,
    pub cipher: C,
}

pub const COMM_RESPONSE: u8 = 4;
pub const SECURE_RESPONSE: u8 = 5;

impl<C: Cipher> Tag<C> {
    /// "Reset gives CS-Reset with everything false and zero."
    pub fn fresh() -> Self {
        Tag {
            name: Name::CsReset,
            init: false,
            ta: false,
            ia: false,
            error: false,
            keyid: 0,
            options: 0,
            mac: Mac::default(),
            cipher: C::from_halves([0; 2], [0; 2]),
        }
    }

    /// "Reset is never refused: it answers 0 with no bits, whatever the buffer's
    /// length."
    pub fn reset(&mut self, reply: &mut [u8]) -> (u8, usize) {
        *self = Self::fresh();
        hand_back(reply, 0, &[])
    }

    /// "Closing sets ERROR, keeps state name and other flags, and zeroes
    /// registers, accumulator, register, width, KeyID and options."
    pub fn close(&mut self) {
        self.error = true;
        self.keyid = 0;
        self.options = 0;
        self.mac = Mac::default();
        self.cipher = C::from_halves([0; 2], [0; 2]);
    }

    /// "The error type is by Annex B's table, not its text, from state and flags:
    /// 0 when ERROR is false or the state earns 8."
    pub fn error_type(&self) -> u8 {
        if !self.error || self.earns_8() {
            return 0;
        }
        match (self.name, self.ta, self.ia) {
            (Name::CsReset, false, false) => 1,
            (Name::Ta1, true, false) => 3,
            (Name::Ia1, false, false) => 3,
            (Name::Ia2, false, false) => 2,
            (Name::Ia2, false, true) => 3,
            (Name::Ma1, false, false) => 3,
            (Name::Ma2, false, false) => 2,
            (Name::Ma2, true, true) => 3,
            _ => 0,
        }
    }

    /// "name and flags fit no row (IA.2 and MA.2, when closed, may also have TA
    /// and IA both false)"
    fn flags_fit(&self) -> bool {
        let open = match self.name {
            Name::CsReset => (false, false, false),
            Name::Ta1 => (true, true, false),
            Name::Ia1 | Name::Ma1 => (true, false, false),
            Name::Ia2 => (true, false, true),
            Name::Ma2 => (true, true, true),
        };
        let flags = (self.init, self.ta, self.ia);
        let may_have_failed = self.error && (self.name == Name::Ia2 || self.name == Name::Ma2);
        flags == open || (may_have_failed && flags == (true, false, false))
    }

    /// "8 is given exactly when"
    pub fn earns_8(&self) -> bool {
        let waits = self.name == Name::Ia1 || self.name == Name::Ma1;
        let empty = self.name == Name::CsReset || self.error;
        let width = if empty || waits { 0 } else { payloads::width(self.options) };
        let limit = 1u128 << width;
        !self.flags_fit()
            || self.mac.width != width
            || self.options >= 4
            || (waits && self.options != 0)
            || self.mac.accumulator as u128 >= limit
            || self.mac.register as u128 >= limit
            || (empty && !self.holds_zeros())
    }

    /// "anything but zeros beside name and flags"
    fn holds_zeros(&self) -> bool {
        self.keyid == 0
            && self.options == 0
            && self.mac == Mac::default()
            && self.cipher.halves() == ([0; 2], [0; 2])
    }

    /// The column "Commands".
    fn takes_command(&self, kind: u8) -> bool {
        match self.name {
            Name::CsReset | Name::Ia1 | Name::Ma1 => kind == AUTH,
            Name::Ta1 => false,
            Name::Ia2 => kind == COMM,
            Name::Ma2 => kind == COMM || (kind == SECURE && payloads::secure(self.options)),
        }
    }

    /// The column "Responses wanted", of the two states that have work.
    fn takes_response(&self, kind: u8) -> bool {
        match self.name {
            Name::Ta1 => kind == COMM_RESPONSE,
            Name::Ma2 => {
                kind == COMM_RESPONSE || (kind == SECURE_RESPONSE && payloads::secure(self.options))
            }
            _ => false,
        }
    }

    /// Step 0 is asked for in CS-Reset, step 1 in IA.1 and MA.1. The checks that
    /// only an authentication command has.
    fn auth_found(&self, payload: &[bool], features: u8, book: &[u8]) -> Found {
        let asked = payloads::read_auth_command(payload);
        let options_fit = payloads::options_supported(asked.options, features);
        if self.name == Name::CsReset {
            // "whose step 0 asks only for 0000"
            let options_fit = if asked.method == TA { options_fit } else { asked.options == 0 };
            Found {
                length: payload.len() != 64,
                // "Method 11 is 3 at the tag."
                step: asked.method == 3 || asked.step != 0,
                keyid: book::search(book, asked.keyid).is_none(),
                support: !payloads::method_supported(asked.method, features) || !options_fit,
                ..Found::default()
            }
        } else {
            let method = if self.name == Name::Ia1 { IA } else { MA };
            Found {
                length: payload.len() != 80,
                step: asked.method != method || asked.step != 1,
                keyid: asked.keyid != self.keyid,
                // "the method's own bit is held at step 0 only"
                support: !options_fit,
                ..Found::default()
            }
        }
    }

    /// "A command call takes kind, bits, features, book and the tag's number".
    #[allow(clippy::too_many_arguments)]
    pub fn command(
        &mut self,
        kind: u8,
        payload: &[u8],
        count: usize,
        features: u8,
        book: &[u8],
        number: u64,
        reply: &mut [u8],
    ) -> (u8, usize) {
        let bits = bits::from_bytes(payload, count);
        let by_kind = match kind {
            AUTH => self.auth_found(&bits, features, book),
            COMM | SECURE => {
                Found { length: payloads::message_wrong(&bits, self.mac.width), ..Found::default() }
            }
            _ => Found::default(),
        };
        let found = Found {
            state: self.earns_8(),
            buffer: reply.len() < REPLY_BYTES,
            input: bits::beyond(payload, count) || number >= payloads::NUMBER_LIMIT || kind > 3,
            book: !book::sound(book),
            error: self.error,
            work: self.name == Name::Ta1 && kind == COMM,
            kind: !self.takes_command(kind),
            ..by_kind
        };
        let (answer, bits) = match found.refusal() {
            Some(refusal) => (refusal, Vec::new()),
            None if kind != AUTH => self.message(kind == SECURE, &bits),
            None if self.name == Name::CsReset => self.step_0(&bits, features, book, number),
            None => self.step_1(&bits),
        };
        if closes(answer) {
            self.close();
        }
        hand_back(reply, answer, &bits)
    }

    /// Clause 9 and 10.2.3, 10.3.3, 10.4.3. "CS-Init is passed within the call.
    /// KeyID is stored from step 0, options with the width."
    fn step_0(
        &mut self,
        payload: &[bool],
        features: u8,
        book: &[u8],
        number: u64,
    ) -> (u8, Vec<bool>) {
        let asked = payloads::read_auth_command(payload);
        let key = book::search(book, asked.keyid).expect("refused with 5 before");
        let reader = bits::field(payload, 16, 48);
        self.cipher = C::start(
            &key,
            reader,
            number,
            payloads::tag_authenticated(asked.method),
            payloads::reader_authenticated(asked.method),
        );
        self.init = true;
        self.keyid = asked.keyid;
        let mut reply = payloads::features_and_number(features, number);
        match asked.method {
            TA => {
                self.name = Name::Ta1;
                self.ta = true;
                self.options = asked.options;
                self.mac = self.cipher.fill(payloads::width(asked.options));
                reply.extend(self.cipher.keystream(64));
            }
            IA => self.name = Name::Ia1,
            _ => self.name = Name::Ma1,
        }
        (0, reply)
    }

    /// 10.3.5 and 10.4.5. "In IA and MA the width is known only at step 1, so
    /// accumulator and register are filled then."
    fn step_1(&mut self, payload: &[bool]) -> (u8, Vec<bool>) {
        let mutual = self.name == Name::Ma1;
        self.name = if mutual { Name::Ma2 } else { Name::Ia2 };
        self.options = payloads::read_auth_command(payload).options;
        self.mac = self.cipher.fill(payloads::width(self.options));
        let wanted = self.cipher.keystream(64);
        if payload[16..80] != wanted {
            // "A failed comparison in step 1 leads to IA.2 or MA.2, TA and IA
            // false."; "10 in step 1 at the tag, whose reply is the single bit 1"
            return (10, vec![true]);
        }
        self.ia = true;
        let mut reply = vec![false];
        if mutual {
            // "MA step 1, bit 0 and keystream bits 64..127"
            self.ta = true;
            reply.extend(self.cipher.keystream(64));
        }
        (0, reply)
    }

    /// 11.2 and 11.3. "A received message that is accepted, at either end, has
    /// its plain data bits as reply".
    fn message(&mut self, secret: bool, payload: &[bool]) -> (u8, Vec<bool>) {
        match payloads::unseal(&mut self.cipher, &mut self.mac, secret, payload) {
            Some(plain) => (0, plain),
            None => (10, Vec::new()),
        }
    }

    /// "a response call takes kind and data"
    pub fn response(
        &mut self,
        kind: u8,
        data: &[u8],
        count: usize,
        reply: &mut [u8],
    ) -> (u8, usize) {
        let found = Found {
            state: self.earns_8(),
            buffer: reply.len() < REPLY_BYTES,
            input: bits::beyond(data, count)
                || (kind != COMM_RESPONSE && kind != SECURE_RESPONSE)
                || count > payloads::MOST_DATA_BITS,
            error: self.error,
            work: self.name != Name::Ta1 && self.name != Name::Ma2,
            kind: !self.takes_response(kind),
            ..Found::default()
        };
        let (answer, bits) = match found.refusal() {
            Some(refusal) => (refusal, Vec::new()),
            None => {
                let data = bits::from_bytes(data, count);
                let secret = kind == SECURE_RESPONSE;
                (0, payloads::seal(&mut self.cipher, &mut self.mac, secret, &data))
            }
        };
        if closes(answer) {
            self.close();
        }
        hand_back(reply, answer, &bits)
    }

    /// The whole state as numbers, in the order of `FIELDS`.
    pub fn numbers(&self) -> [u64; 14] {
        let (b, s) = self.cipher.halves();
        [
            self.name as u64,
            self.init as u64,
            self.ta as u64,
            self.ia as u64,
            self.error as u64,
            self.keyid as u64,
            self.options as u64,
            self.mac.width as u64,
            b[0],
            b[1],
            s[0],
            s[1],
            self.mac.accumulator,
            self.mac.register,
        ]
    }

    /// The state of these numbers, or nothing where one is beyond its field.
    pub fn from_numbers(numbers: &[u64; 14]) -> Option<Self> {
        let flag = |place: usize| (numbers[place] < 2).then_some(numbers[place] == 1);
        let byte = |place: usize| u8::try_from(numbers[place]).ok();
        Some(Tag {
            name: *NAMES.get(usize::try_from(numbers[0]).ok()?)?,
            init: flag(1)?,
            ta: flag(2)?,
            ia: flag(3)?,
            error: flag(4)?,
            keyid: byte(5)?,
            options: byte(6)?,
            mac: Mac { width: byte(7)?, accumulator: numbers[12], register: numbers[13] },
            cipher: C::from_halves([numbers[8], numbers[9]], [numbers[10], numbers[11]]),
        })
    }
}

/// What the numbers of a tag's state stand for.
pub const FIELDS: [&str; 14] = [
    "name",
    "init",
    "ta",
    "ia",
    "error",
    "keyid",
    "options",
    "width",
    "b first half",
    "b second half",
    "s first half",
    "s second half",
    "accumulator",
    "register",
];
