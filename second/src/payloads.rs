//! "Payloads": the layouts and rules that tag and reader share.

use crate::bits;
use crate::cipher::{Cipher, Mac};

pub const TA: u8 = 0;
pub const IA: u8 = 1;
pub const MA: u8 = 2;

pub const AUTH: u8 = 0;
pub const COMM: u8 = 1;
pub const SECURE: u8 = 2;

pub const MOST_DATA_BITS: usize = 2048;
pub const NUMBER_LIMIT: u64 = 1 << 48;

/// "s96 = 1 for TA and MA"
pub fn tag_authenticated(method: u8) -> bool {
    method == TA || method == MA
}

/// "s97 = 1 for IA and MA"
pub fn reader_authenticated(method: u8) -> bool {
    method == IA || method == MA
}

/// "Options (Table 4): bit 0 chooses MAC64"
pub fn width(options: u8) -> u8 {
    if options & 1 == 1 {
        64
    } else {
        32
    }
}

/// "bit 1 secure messages (acts in MA only)"
pub fn secure(options: u8) -> bool {
    options & 2 == 2
}

/// "bits 2 and 3 must be 0"; "Options bit 0 needs feature 3 if 1, feature 2 if 0;
/// options bit 1 needs feature 4, in every method."
pub fn options_supported(options: u8, features: u8) -> bool {
    let feature = |bit: u8| (features >> bit) & 1 == 1;
    let mac = if options & 1 == 1 { feature(3) } else { feature(2) };
    let messages = if secure(options) { feature(4) } else { true };
    options < 4 && mac && messages
}

/// "Features (Table 5): bit 0 TA, 1 IA"; "MA needs no bit". The tag asks it of its
/// own features: "the method's own bit is held at step 0 only". The reader asks it
/// of received ones (document 02, Req 01): "TA needs bit 0, IA bit 1, and MA none."
pub fn method_supported(method: u8, features: u8) -> bool {
    match method {
        TA => features & 1 == 1,
        IA => (features >> 1) & 1 == 1,
        MA => true,
        _ => false,
    }
}

/// Both authentication commands begin alike: "method 2, step 2, options 4,
/// KeyID 8", then the reader's number or IKeystream.
pub fn auth_command(method: u8, step: u8, options: u8, keyid: u8, rest: &[bool]) -> Vec<bool> {
    let mut payload = bits::from_number(method as u64, 2);
    payload.extend(bits::from_number(step as u64, 2));
    payload.extend(bits::from_number(options as u64, 4));
    payload.extend(bits::from_number(keyid as u64, 8));
    payload.extend(rest);
    payload
}

/// "method 2, step 2 (00), options 4, KeyID 8": the first 16 bits of both.
pub struct AuthCommand {
    pub method: u8,
    pub step: u8,
    pub options: u8,
    pub keyid: u8,
}

pub fn read_auth_command(payload: &[bool]) -> AuthCommand {
    AuthCommand {
        method: bits::field(payload, 0, 2) as u8,
        step: bits::field(payload, 2, 2) as u8,
        options: bits::field(payload, 4, 4) as u8,
        keyid: bits::field(payload, 8, 8) as u8,
    }
}

/// "features 8, tag's number 48", then in TA "64 keystream bits".
pub fn features_and_number(features: u8, number: u64) -> Vec<bool> {
    let mut payload = bits::from_number(features as u64, 8);
    payload.extend(bits::from_number(number, 48));
    payload
}

/// "Communication: 0 to 2,048 data bits, eight zero bits, MAC of w bits."
/// True when the length is wrong or the eight bits are not zero.
pub fn message_wrong(payload: &[bool], width: u8) -> bool {
    let behind = 8 + width as usize;
    payload.len() < behind
        || payload.len() > MOST_DATA_BITS + behind
        || bits::field(payload, payload.len() - behind, 8) != 0
}

/// "The zero bits are neither encrypted nor in the MAC."
/// The payload of a message to send.
pub fn seal<C: Cipher>(cipher: &mut C, mac: &mut Mac, secret: bool, data: &[bool]) -> Vec<bool> {
    let mut payload = if secret {
        cipher.encrypt(mac, data)
    } else {
        cipher.mac(mac, data);
        data.to_vec()
    };
    payload.extend([false; 8]);
    payload.extend(bits::from_number(mac.accumulator, mac.width as usize));
    payload
}

/// The plain data of a received message of right length, or nothing when its
/// MAC differs.
pub fn unseal<C: Cipher>(
    cipher: &mut C,
    mac: &mut Mac,
    secret: bool,
    payload: &[bool],
) -> Option<Vec<bool>> {
    let width = mac.width as usize;
    let data = &payload[..payload.len() - 8 - width];
    let received = &payload[payload.len() - width..];
    let plain = if secret {
        cipher.decrypt(mac, data)
    } else {
        cipher.mac(mac, data);
        data.to_vec()
    };
    (received == bits::from_number(mac.accumulator, width)).then_some(plain)
}
