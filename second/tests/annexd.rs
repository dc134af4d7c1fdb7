//! Every line of the tables D.1 to D.4 of Annex D, on both forms of the cipher.

mod common;

use common::hex;
use second::bits::{from_bytes, to_bytes, to_number};
use second::cipher::Cipher;
use second::fast::Fast;
use second::grain::Grain;

/// One column of the tables D.1 to D.3, by line numbers.
struct Set {
    name: &'static str,
    ta: bool,
    ia: bool,
    l1_key: &'static str,
    l2_i_random: &'static str,
    l3_t_random: &'static str,
    l4_nfsr: &'static str,
    l5_lfsr: &'static str,
    l6_nfsr: &'static str,
    l7_lfsr: &'static str,
    l8_pre_output: &'static str,
    l9_accumulator: &'static str,
    l10_register: &'static str,
    l11_keystream: &'static str,
    l12_macstream: &'static str,
    l13_ikeystream: Option<&'static str>,
    l14_tkeystream: Option<&'static str>,
    l15_message: &'static str,
    l16_length: usize,
    l17_nfsr: &'static str,
    l18_lfsr: &'static str,
    l19_register: &'static str,
    l20_accumulator: &'static str,
    l21_pre_output: &'static str,
    l22_keystream: &'static str,
    l23_macstream: &'static str,
    l24_encrypted: Option<&'static str>,
    l25_mac: &'static str,
}

const ZERO_KEY: &str = "0000000000000000 0000000000000000";

const SET_1: Set = Set {
    name: "set 1",
    ta: true,
    ia: false,
    l1_key: ZERO_KEY,
    l2_i_random: "800000000000",
    l3_t_random: "000000000000",
    l4_nfsr: ZERO_KEY,
    l5_lfsr: "8000000000000000 00000000BFFFFFFE",
    l6_nfsr: "902A737F9A7B3038 6B94D1DA00390F77",
    l7_lfsr: "A062786C5B23BECD AC72CC6A53FC3C79",
    l8_pre_output: "62D65B2AB49F2458 CC3C07EC06170A8B 64740D484AB48852",
    l9_accumulator: "62D65B2A",
    l10_register: "B49F2458",
    l11_keystream: "A61E113B44223CA1",
    l12_macstream: "A63A2701AE38860C",
    l13_ikeystream: None,
    l14_tkeystream: Some("A61E113B44223CA1"),
    l15_message: "12345678AB",
    l16_length: 40,
    l17_nfsr: "948A926A91D7FA0C 31813D114D83FDA6",
    l18_lfsr: "C762EB637F7F4B1E 0C782F1E8E6BD7D6",
    l19_register: "B49F2458",
    l20_accumulator: "62D65B2A",
    l21_pre_output: "090DD9F168BD2993 FF9B80",
    l22_keystream: "22AC6E69FB80",
    l23_macstream: "13DD8715F500",
    l24_encrypted: None,
    l25_mac: "4335B1F6",
};

const SET_2: Set = Set {
    name: "set 2",
    ta: false,
    ia: true,
    l5_lfsr: "8000000000000000 000000007FFFFFFE",
    l6_nfsr: "2B66A445596E3DE6 BC7134C4BAAD023B",
    l7_lfsr: "C579D7468E2EE844 711301DEE67A484A",
    l8_pre_output: "EC6C2FB001BE0C16 A488E73086F0CD48 687210FD1E9B93D4",
    l9_accumulator: "EC6C2FB0",
    l10_register: "01BE0C16",
    l11_keystream: "CAD49CA2650E3B98",
    l12_macstream: "20B42CB88C4F655E",
    l13_ikeystream: Some("CAD49CA2650E3B98"),
    l14_tkeystream: None,
    l17_nfsr: "2085C14D99DBB859 F2813BB4065F37E6",
    l18_lfsr: "0162E4EA0316C8EC 7A78AA1BAFD74A60",
    l19_register: "01BE0C16",
    l20_accumulator: "EC6C2FB0",
    l21_pre_output: "2FA73D3EFA3C5643 C629C0",
    l22_keystream: "7D67F6119680",
    l23_macstream: "3376C6E9A180",
    l25_mac: "C7C85384",
    ..SET_1
};

const SET_3: Set = Set {
    name: "set 3",
    ta: true,
    ia: true,
    l5_lfsr: "8000000000000000 00000000FFFFFFFE",
    l6_nfsr: "9D2C0C5281D33CB9 444720688B0A3A7A",
    l7_lfsr: "A3F545F997EBC748 83A7E1384513C974",
    l8_pre_output: "564B362219BD90E3 01F259CF52BF5DA9 DEB1845BE6993ABD 2D3C77C4ACB90E42 \
                    2640FBD6E8AE642A",
    l9_accumulator: "564B3622",
    l10_register: "19BD90E3",
    l11_keystream: "0D2B1F2EBC83DA7E 6658EE3150F9EF47",
    l12_macstream: "1CDBC7F1E52DA547 36FA252828DE82A0",
    l13_ikeystream: Some("0D2B1F2EBC83DA7E"),
    l14_tkeystream: Some("6658EE3150F9EF47"),
    l17_nfsr: "2F0E190C3F28FF25 87E726F0CB3FA13B",
    l18_lfsr: "A429A0136DE6D407 5E4DE180E34E5209",
    l19_register: "19BD90E3",
    l20_accumulator: "564B3622",
    l21_pre_output: "9942C4B00AB37C64E77FC0",
    l22_keystream: "A18C3D64D780",
    l23_macstream: "58A405EABF80",
    l25_mac: "D594AD7D",
    ..SET_1
};

const SET_4: Set = Set { name: "set 4", l2_i_random: "000000000000", ..SET_3 };

const SET_5: Set =
    Set { name: "set 5", l24_encrypted: Some("B3B86B1C7C"), l25_mac: "66789267", ..SET_3 };

const SET_6: Set = Set {
    name: "set 6",
    l1_key: "0123456789ABCDEF FEDCBA9876543210",
    l2_i_random: "112233445566",
    l3_t_random: "778899AABBCC",
    l4_nfsr: "0123456789ABCDEF FEDCBA9876543210",
    l5_lfsr: "9122334455667788 99AABBCCFFFFFFFE",
    l6_nfsr: "EBD538C90CF87DC1 CFEBF485DE38D75E",
    l7_lfsr: "7631DCA9EF303CC2 E4B932C9C126315D",
    l8_pre_output: "4BD5F24D4464B119 1AF86A6A62B042D2 31E66DF620FFA6D4 D1D230BA94C15E0D \
                    05E6E284C7D7D653",
    l9_accumulator: "4BD5F24D",
    l10_register: "4464B119",
    l11_keystream: "3E775C194D6D4FD8 894F88320DD89991",
    l12_macstream: "4C88848C5ABE0F2E DC4469E33A82BFED",
    l13_ikeystream: Some("3E775C194D6D4FD8"),
    l14_tkeystream: Some("894F88320DD89991"),
    l17_nfsr: "624650EF2334AD45 0EFC8BDB7ED6A7A9",
    l18_lfsr: "650D94DA709D0037 2DE7906201718BD3",
    l19_register: "4464B119",
    l20_accumulator: "4BD5F24D",
    l21_pre_output: "772BCE1E9F5166EA3DBBC0",
    l22_keystream: "57B3B05F6F80",
    l23_macstream: "F1A67DA87580",
    l24_encrypted: Some("4587E627C4"),
    l25_mac: "D495799A",
    ..SET_5
};

fn number(text: &str) -> u64 {
    to_number(&from_bytes(&hex(text), 64))
}

fn key(text: &str) -> [u8; 16] {
    hex(text).try_into().expect("16 bytes")
}

fn nfsr<C: Cipher>(cipher: &C) -> Vec<u8> {
    let (b, _) = cipher.halves();
    [b[0].to_be_bytes(), b[1].to_be_bytes()].concat()
}

fn lfsr<C: Cipher>(cipher: &C) -> Vec<u8> {
    let (_, s) = cipher.halves();
    [s[0].to_be_bytes(), s[1].to_be_bytes()].concat()
}

fn table_mac32<C: Cipher>(set: &Set) {
    let name = set.name;
    let key = key(set.l1_key);
    let (reader, tag) = (number(set.l2_i_random), number(set.l3_t_random));
    let ready = C::set_up(&key, reader, tag, set.ta, set.ia);
    assert_eq!(nfsr(&ready), hex(set.l4_nfsr), "{name} line 4");
    assert_eq!(lfsr(&ready), hex(set.l5_lfsr), "{name} line 5");
    let mut cipher = C::start(&key, reader, tag, set.ta, set.ia);
    assert_eq!(nfsr(&cipher), hex(set.l6_nfsr), "{name} line 6");
    assert_eq!(lfsr(&cipher), hex(set.l7_lfsr), "{name} line 7");
    let pre_output = hex(set.l8_pre_output);
    let outputs = cipher.clone().outputs(8 * pre_output.len());
    assert_eq!(to_bytes(&outputs), pre_output, "{name} line 8");
    let mut mac = cipher.fill(32);
    assert_eq!(mac.accumulator, number(set.l9_accumulator), "{name} line 9");
    assert_eq!(mac.register, number(set.l10_register), "{name} line 10");
    let pairs = 8 * hex(set.l11_keystream).len();
    assert_eq!(pairs, if set.ta && set.ia { 128 } else { 64 });
    let (keystream, macstream) = cipher.clone().pairs(pairs);
    assert_eq!(to_bytes(&keystream), hex(set.l11_keystream), "{name} line 11");
    assert_eq!(to_bytes(&macstream), hex(set.l12_macstream), "{name} line 12");
    let mut from = 0;
    if let Some(line) = set.l13_ikeystream {
        assert_eq!(to_bytes(&keystream[from..from + 64]), hex(line), "{name} line 13");
        assert_eq!(to_bytes(&cipher.keystream(64)), hex(line), "{name} line 13");
        from = 64;
    }
    if let Some(line) = set.l14_tkeystream {
        assert_eq!(to_bytes(&keystream[from..from + 64]), hex(line), "{name} line 14");
        assert_eq!(to_bytes(&cipher.keystream(64)), hex(line), "{name} line 14");
    }

    let message = from_bytes(&hex(set.l15_message), set.l16_length);
    assert_eq!((message.len(), set.l16_length), (40, 40), "{name} lines 15 and 16");
    assert_eq!(nfsr(&cipher), hex(set.l17_nfsr), "{name} line 17");
    assert_eq!(lfsr(&cipher), hex(set.l18_lfsr), "{name} line 18");
    assert_eq!(mac.register, number(set.l19_register), "{name} line 19");
    assert_eq!(mac.accumulator, number(set.l20_accumulator), "{name} line 20");
    let outputs = cipher.clone().outputs(82);
    assert_eq!(to_bytes(&outputs), hex(set.l21_pre_output), "{name} line 21");
    let (keystream, macstream) = cipher.clone().pairs(41);
    assert_eq!(to_bytes(&keystream), hex(set.l22_keystream), "{name} line 22");
    assert_eq!(to_bytes(&macstream), hex(set.l23_macstream), "{name} line 23");
    if let Some(line) = set.l24_encrypted {
        let (mut other, mut other_mac) = (cipher.clone(), mac);
        let encrypted = cipher.encrypt(&mut mac, &message);
        assert_eq!(to_bytes(&encrypted), hex(line), "{name} line 24");
        assert_eq!(other.decrypt(&mut other_mac, &encrypted), message, "{name} line 15");
        assert_eq!((&other, other_mac), (&cipher, mac), "{name} both ends");
    } else {
        cipher.mac(&mut mac, &message);
    }
    assert_eq!(mac.accumulator, number(set.l25_mac), "{name} line 25");
}

/// A column of table D.4: lines 1 to 3, 4, 5, 6 and 7, 9; line 8 is not there.
fn table_mac64<C: Cipher>(ta: bool, l4_ikeystream: &str, l5_tkeystream: &str, l9_mac: &str) {
    let reader = number("800000000000");
    let mut cipher = C::start(&key(ZERO_KEY), reader, 0, ta, !ta);
    let mut mac = cipher.fill(64);
    let line = if ta { l5_tkeystream } else { l4_ikeystream };
    assert_eq!(to_bytes(&cipher.keystream(64)), hex(line), "lines 4 and 5");
    cipher.mac(&mut mac, &from_bytes(&hex("12345678AB"), 40));
    assert_eq!(mac.accumulator, number(l9_mac), "line 9");
}

fn all_tables<C: Cipher>() {
    for set in [&SET_1, &SET_2, &SET_3, &SET_4, &SET_5, &SET_6] {
        table_mac32::<C>(set);
    }
    table_mac64::<C>(true, "", "44223CA122AC6E69", "84E0EA3EDD6C0825");
    table_mac64::<C>(false, "650E3B987D67F611", "", "A66CEE82D876E368");
}

#[test]
fn plain_form() {
    all_tables::<Grain>();
}

#[test]
fn fast_form() {
    all_tables::<Fast>();
}

/// "set 3's MAC (accumulator 564B3622, register 19BD90E3, MAC bits 58A405EABF80,
/// message 12345678AB: D594AD7D)", by hand from the sentence itself.
#[test]
fn set_3_mac_by_hand() {
    let mut accumulator = from_bytes(&hex("564B3622"), 32);
    let mut register = from_bytes(&hex("19BD90E3"), 32);
    let mac_bits = from_bytes(&hex("58A405EABF80"), 41);
    let mut message = from_bytes(&hex("12345678AB"), 40);
    message.push(true);
    for i in 0..41 {
        for j in 0..32 {
            accumulator[j] ^= message[i] & register[j];
        }
        register.remove(0);
        register.push(mac_bits[i]);
    }
    assert_eq!(to_bytes(&accumulator), hex("D594AD7D"));
}
