//! Sessions of reader and tag. Each honest call stands beside all that could be called in its
//! place.

use std::ops::Range;

use kusarehyon::{READER_BYTES, TAG_BYTES};
use second::bits;
use second::payloads::{AUTH, COMM, IA, MA, SECURE, TA};

use crate::call::{Bits, Call, Outcome, ReaderCall, TagCall, What};
use crate::comparison::{Checked, Comparison};
use crate::inputs;

/// "method 2, step 2 (00), options 4, KeyID 8, reader's number 48"
const STEP_0: [Range<usize>; 5] = [0..2, 2..4, 4..8, 8..16, 16..64];
/// "method, step 01, options, KeyID, IKeystream 64"
const STEP_1: [Range<usize>; 5] = [0..2, 2..4, 4..8, 8..16, 16..80];
/// "features 8, tag's number 48, 64 keystream bits"
const TA_RESPONSE: [Range<usize>; 3] = [0..8, 8..56, 56..120];
/// "IA and MA step 0, 56 bits"
const FIRST_RESPONSE: [Range<usize>; 2] = [0..8, 8..56];
/// "MA step 1, bit 0 and keystream bits 64..127"; "IA step 1, one bit", and so nothing of the rest.
const MA_RESPONSE: [Range<usize>; 2] = [0..1, 1..65];
const IA_RESPONSE: [Range<usize>; 2] = [0..1, 1..1];

/// "a response of kind 4 as 1, of 5 as 2"
pub const WANTED: u8 = 3;

const WANDERING_CALLS: usize = 30;

/// Whose block a call is made on: its place among the session's blocks.
#[derive(Clone, Copy)]
enum Machine {
    Tag,
    Reader,
}

pub struct Session<'a> {
    comparison: &'a mut Comparison,
    method: u8,
    options: u8,
    features: u8,
    keyid: u8,
    book: Vec<u8>,
    tag_number: u64,
    reader_number: u64,
    blocks: [Vec<u8>; 2],
    heard: Vec<Bits>,
}

/// The features that the method and the options need, and any others.
fn features(any: u8, method: u8, options: u8) -> u8 {
    let method_bit = [1, 2, 0][method as usize];
    let mac_bit = if options & 1 == 1 { 8 } else { 4 };
    let secure_bit = if options & 2 == 2 { 16 } else { 0 };
    any | method_bit | mac_bit | secure_bit
}

impl<'a> Session<'a> {
    /// The blocks hold anything before the first reset.
    pub fn new(comparison: &'a mut Comparison, method: u8, options: u8) -> Session<'a> {
        let random = &mut comparison.random;
        let keyid = random.byte();
        Session {
            method,
            options,
            features: features(random.byte(), method, options),
            keyid,
            book: inputs::sound_book(random, keyid),
            tag_number: inputs::sound_number(random),
            reader_number: inputs::sound_number(random),
            blocks: [random.bytes(TAG_BYTES), random.bytes(READER_BYTES)],
            heard: Vec::new(),
            comparison,
        }
    }

    pub fn run(&mut self, messages: usize) -> Checked<()> {
        self.tag_turn(TagCall::Reset, &[])?;
        self.reader_turn(ReaderCall::Reset, &[])?;
        self.authenticate()?;
        for _ in 0..messages {
            let from_tag = match self.method {
                TA => true,
                IA => false,
                _ => self.comparison.random.one_in(2),
            };
            self.message(from_tag)?;
        }
        self.wander(WANDERING_CALLS)
    }

    fn authenticate(&mut self) -> Checked<()> {
        let begin = self.begin();
        let step_0 = self.reader_turn(begin, &[])?;
        let command = self.command(AUTH, step_0);
        let first = self.tag_turn(command, &STEP_0)?;
        self.hear_features(&first)?;
        if self.method == TA {
            self.reader_turn(ReaderCall::Replied { payload: first }, &TA_RESPONSE)?;
            return Ok(());
        }
        let step_1 = self.reader_turn(ReaderCall::Replied { payload: first }, &FIRST_RESPONSE)?;
        let command = self.command(AUTH, step_1);
        let payload = self.tag_turn(command, &STEP_1)?;
        let fields = if self.method == IA {
            IA_RESPONSE
        } else {
            MA_RESPONSE
        };
        self.reader_turn(ReaderCall::Replied { payload }, &fields)?;
        Ok(())
    }

    /// Step 0's response with every choice of Table 5's bits: the method's own and those of the
    /// options there or missing, now and then with other bits behind them or with another count.
    fn hear_features(&mut self, first: &Bits) -> Checked<()> {
        for table_5 in 0..32 {
            let random = &mut self.comparison.random;
            let mut payload = first.clone();
            payload.bytes[0] = random.byte() & 0xE0 | table_5;
            if random.one_in(4) {
                inputs::damage(random, &mut payload, &(8..first.count));
            }
            if random.one_in(8) {
                inputs::recount(random, &mut payload);
            }
            let block = self.blocks[Machine::Reader as usize].clone();
            let replied = What::Reader(ReaderCall::Replied { payload });
            self.aside(Machine::Reader, replied, block)?;
        }
        Ok(())
    }

    /// A message either way: what is received is what was sent.
    fn message(&mut self, from_tag: bool) -> Checked<()> {
        let data = inputs::data(&mut self.comparison.random);
        let said = bits::from_bytes(&data.bytes, data.count);
        let kind = self.message_kind();
        let payload = if from_tag {
            let kind = kind + WANTED;
            self.tag_turn(TagCall::Response { kind, data }, &[])?
        } else {
            self.reader_turn(ReaderCall::Send { kind, data }, &[])?
        };
        let zeros = said.len()..said.len() + 8;
        let fields = [0..zeros.start, zeros.clone(), zeros.end..payload.count];
        let got = if from_tag {
            self.reader_turn(ReaderCall::Receive { kind, payload }, &fields)?
        } else {
            let command = self.command(kind, payload);
            self.tag_turn(command, &fields)?
        };
        assert_eq!(bits::from_bytes(&got.bytes, got.count), said);
        Ok(())
    }

    /// "secure in MA only and if enabled"
    fn message_kind(&mut self) -> u8 {
        let secure = self.method == MA && self.options & 2 == 2;
        if secure && !self.comparison.random.one_in(3) {
            SECURE
        } else {
            COMM
        }
    }

    fn begin(&self) -> ReaderCall {
        ReaderCall::Begin {
            method: self.method,
            options: self.options,
            keyid: self.keyid,
            number: self.reader_number,
            book: self.book.clone(),
        }
    }

    fn command(&self, kind: u8, payload: Bits) -> TagCall {
        TagCall::Command {
            kind,
            payload,
            features: self.features,
            book: self.book.clone(),
            number: self.tag_number,
        }
    }

    fn tag_turn(&mut self, call: TagCall, fields: &[Range<usize>]) -> Checked<Bits> {
        self.turn(Machine::Tag, What::Tag(call), fields)
    }

    fn reader_turn(&mut self, call: ReaderCall, fields: &[Range<usize>]) -> Checked<Bits> {
        self.turn(Machine::Reader, What::Reader(call), fields)
    }

    /// An honest call, after all that could stand in its place.
    fn turn(&mut self, machine: Machine, what: What, fields: &[Range<usize>]) -> Checked<Bits> {
        for other in self.others(&what, fields) {
            let block = self.blocks[machine as usize].clone();
            self.aside(machine, other, block)?;
        }
        for machine in [Machine::Tag, Machine::Reader] {
            let block = self.blocks[machine as usize].clone();
            let out_of_turn = self.any_call(machine);
            self.aside(machine, out_of_turn, block)?;
        }
        for _ in 0..3 {
            let block = &self.blocks[machine as usize];
            let block = inputs::other_block(&mut self.comparison.random, block);
            self.aside(machine, what.clone(), block)?;
        }
        for _ in 0..6 {
            self.much_at_once(machine, &what, fields)?;
        }
        let outcome = self.go_on(machine, what.clone())?;
        assert_eq!(outcome.answer, 0, "an honest call is refused: {what:02X?}");
        Ok(outcome.reply())
    }

    /// A call that the session goes on from.
    fn go_on(&mut self, machine: Machine, what: What) -> Checked<Outcome> {
        let block = self.blocks[machine as usize].clone();
        let outcome = self.call(what, block)?;
        self.blocks[machine as usize].clone_from(&outcome.block);
        self.heard.push(outcome.reply());
        Ok(outcome)
    }

    /// Calls of both machines in any order, each going on from those before.
    fn wander(&mut self, calls: usize) -> Checked<()> {
        for _ in 0..calls {
            let machine = self
                .comparison
                .random
                .pick(&[Machine::Tag, Machine::Reader]);
            let what = self.any_call(machine);
            self.go_on(machine, what)?;
        }
        Ok(())
    }

    /// The call with each field of its payload damaged in turn, with other counts, and with other
    /// inputs beside.
    fn others(&mut self, what: &What, fields: &[Range<usize>]) -> Vec<What> {
        let random = &mut self.comparison.random;
        let mut others = vec![what.clone(); fields.len() + 6];
        let (damaged, rest) = others.split_at_mut(fields.len());
        let (recounted, disturbed) = rest.split_at_mut(3);
        for (bits, field) in damaged.iter_mut().filter_map(What::bits_mut).zip(fields) {
            inputs::damage(random, bits, field);
        }
        for bits in recounted.iter_mut().filter_map(What::bits_mut) {
            inputs::recount(random, bits);
        }
        for other in disturbed {
            inputs::disturb(random, other);
        }
        others
    }

    fn call(&mut self, what: What, block: Vec<u8>) -> Checked<Outcome> {
        let buffer = inputs::buffer(&mut self.comparison.random);
        self.comparison.same(Call {
            what,
            block,
            buffer,
        })
    }

    /// A call that the session does not go on from. Any call of the same machine follows it.
    fn aside(&mut self, machine: Machine, what: What, block: Vec<u8>) -> Checked<()> {
        let block = self.call(what, block)?.block;
        let next = self.any_call(machine);
        self.call(next, block)?;
        Ok(())
    }

    /// The call with several things changed at once, of which one is to be answered: payload,
    /// count, other inputs, the block, a closed one too, and the room.
    fn much_at_once(
        &mut self,
        machine: Machine,
        what: &What,
        fields: &[Range<usize>],
    ) -> Checked<()> {
        let random = &mut self.comparison.random;
        let mut what = what.clone();
        if let Some(bits) = what.bits_mut() {
            for field in fields {
                if random.one_in(2) {
                    inputs::damage(random, bits, field);
                }
            }
            if random.one_in(3) {
                inputs::recount(random, bits);
            }
        }
        for _ in 0..random.below(4) {
            inputs::disturb(random, &mut what);
        }
        let own = &self.blocks[machine as usize];
        let block = match random.below(4) {
            0 => inputs::other_block(random, own),
            1 => inputs::closed_block(own),
            _ => own.clone(),
        };
        let buffer = inputs::any_buffer(random);
        self.comparison.same(Call {
            what,
            block,
            buffer,
        })?;
        Ok(())
    }

    /// Any call of a machine: the session's own inputs, bits that were heard before, or any data.
    fn any_call(&mut self, machine: Machine) -> What {
        let random = &mut self.comparison.random;
        let kind = random.below(4) as u8;
        let choice = random.below(8);
        let data = inputs::data(random);
        let payload = if self.heard.is_empty() || random.one_in(8) {
            data.clone()
        } else {
            self.heard[random.below(self.heard.len())].clone()
        };
        match (machine, choice) {
            (Machine::Tag, 0) => What::Tag(TagCall::Reset),
            (Machine::Tag, 1) => What::Tag(TagCall::Close),
            (Machine::Tag, 2 | 3) => What::Tag(TagCall::ErrorType),
            (Machine::Tag, 4 | 5) => What::Tag(TagCall::Response {
                kind: 4 + kind % 2,
                data,
            }),
            (Machine::Tag, _) => What::Tag(self.command(kind, payload)),
            (Machine::Reader, 0) => What::Reader(ReaderCall::Reset),
            (Machine::Reader, 1) => What::Reader(self.begin()),
            (Machine::Reader, 2 | 3) => What::Reader(ReaderCall::Replied { payload }),
            (Machine::Reader, 4 | 5) => What::Reader(ReaderCall::Send {
                kind: 1 + kind % 2,
                data,
            }),
            (Machine::Reader, _) => What::Reader(ReaderCall::Receive {
                kind: 1 + kind % 2,
                payload,
            }),
        }
    }
}
