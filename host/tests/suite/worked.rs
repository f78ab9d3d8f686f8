//! Every worked telegram, with its answers written out.

use plain::corpus::draft::{pack, unpack, Draft};
use plain::worked::*;
use plain::{check, normalise, read, write, Refusal, MAX_BYTES, MAX_VALUES};

const EMPTY: [u8; 8] = [0x90, 0x02, 0x7f, 0x81, 0x25, 0xdf, 0xff, 0xc0];

fn refusal<T>(number: u32, place: u64) -> Result<T, Refusal> {
    Err(Refusal { number, place })
}

/// Reader and check agree on a draft; gives their answer.
fn answer(draft: &Draft) -> Result<usize, Refusal> {
    let (bytes, n) = (pack(&draft.bits()), draft.len() as u64);
    let mut out = [0; MAX_VALUES];
    let count = read(&bytes, n, &mut out);
    assert_eq!(count, check(&bytes, n));
    if let Ok(count) = count {
        assert_eq!(out[..count], draft.values());
    }
    count
}

/// A draft is accepted both ways; gives its number of bits.
fn accepted(draft: &Draft) -> u64 {
    assert_eq!(answer(draft), Ok(draft.entries.len()));
    let mut out = [0xa5; MAX_BYTES];
    let n = write(&draft.values(), &mut out).expect("sound values");
    let bytes = pack(&draft.bits());
    assert_eq!(out[..bytes.len()], bytes);
    assert!(out[bytes.len()..].iter().all(|&byte| byte == 0xa5));
    n
}

/// A draft is refused alike both ways.
fn refused(draft: &Draft, number: u32, place: u64) {
    assert_eq!(answer(draft), refusal(number, place));
    let written = write(&draft.values(), &mut [0; MAX_BYTES]);
    assert_eq!(written, refusal(number, place));
}

/// The one draft's normal form is the other.
fn becomes(from: &[Vec<Cell>], to: &[Vec<Cell>]) {
    let (from, to) = (telegram(from), telegram(to));
    let mut out = [0xa5; MAX_BYTES];
    normalise(&pack(&from.bits()), from.len() as u64, &mut out).expect("sound bits");
    assert_eq!(unpack(&out, to.len()), to.bits());
}

#[test]
fn case_1_the_empty_telegram() {
    let empty = telegram(&[]);
    assert_eq!(pack(&empty.bits()), EMPTY);
    assert_eq!(accepted(&empty), 58);
    let mut out = [7; MAX_VALUES];
    assert_eq!(read(&EMPTY, 58, &mut out), Ok(11));
    assert_eq!(out[..11], [1, 16, 0, 0, 1, 0, 255, 9, 3007, 1, 255]);
    assert!(out[11..].iter().all(|&value| value == 7));
    becomes(&[], &[]);
}

#[test]
fn case_2_the_empty_telegram_spoilt() {
    let mut bytes = EMPTY;
    bytes[7] = 0xc1;
    assert_eq!(check(&bytes, 58), refusal(3, 0));
    assert_eq!(check(&EMPTY, 59), refusal(11, 58));
    assert_eq!(check(&EMPTY, 57), refusal(2, 0));
}

#[test]
fn case_3_lengths() {
    let level_1 = [(3, 1), (8, 3)];
    for (packet, length) in [
        (linking(108, [false, false]), 108),
        (linking(118, [true, false]), 118),
        (linking(118, [false, true]), 118),
        (static_speeds(170), 170),
        (level_order(71, &level_1), 71),
        (level_order(63, &[(3, 0)]), 63),
    ] {
        assert_eq!(accepted(&telegram(&[packet])), 58 + length);
    }
    for packet in [
        linking(118, [false, false]),
        linking(108, [true, false]),
        static_speeds(169),
        level_order(63, &level_1),
        level_order(71, &[(3, 0)]),
    ] {
        refused(&telegram(&[packet]), 8, 60);
    }
}

#[test]
fn case_4_ctcs_2() {
    assert_eq!(accepted(&telegram(&[speed_restrictions([198, 221])])), 279);
    refused(&telegram(&[speed_restrictions([198, 224])]), 8, 60);
    // The inner L_PACKET, which stands behind the outer head and 11 bits.
    refused(&telegram(&[speed_restrictions([221, 221])]), 8, 84);
}

#[test]
fn case_5_texts() {
    assert_eq!(accepted(&telegram(&[text(164, 1, [10, 20], 9)])), 222);
    assert_eq!(accepted(&telegram(&[text(196, 1, [10, 20], 13)])), 254);
    refused(&telegram(&[text(164, 1, [10, 20], 13)]), 8, 60);
}

#[test]
fn case_6_the_stop_telegram() {
    assert_eq!(accepted(&stop()), 154);
}

#[test]
fn case_7_radio_numbers() {
    for radio in [0x0861_4970_0200_02ff, 0x8614_9700_2000_2fff, u64::MAX, 0] {
        assert_eq!(accepted(&telegram(&[session(radio)])), 171);
    }
    for radio in [0x0861_4970_0200_0ff2, 0xf << 60, 0xa, 0xffff_ffff_ffff_fffe] {
        refused(&telegram(&[session(radio)]), 7, 98);
    }
}

#[test]
fn case_8_ctcs_3_normalised() {
    becomes(&[reverse_area(2, 50, 400)], &[reverse_area(1, 500, 4000)]);
    becomes(&[reverse_area(0, 200, 1005)], &[reverse_area(0, 200, 1005)]);
    becomes(&[reverse_area(0, 200, 1010)], &[reverse_area(1, 20, 101)]);
    becomes(&[reverse_area(1, 7, 32767)], &[reverse_area(1, 7, 32767)]);
}

#[test]
fn the_longest_text() {
    assert_eq!(accepted(&telegram(&[text(772, 1, [10, 20], 85)])), 830);
    let longer = telegram(&[text(780, 1, [10, 20], 86)]);
    assert_eq!(answer(&longer), refusal(2, 0));
    // The packet itself ends at bit 830, so it is the end mark that has no room.
    assert_eq!(
        write(&longer.values(), &mut [0; MAX_BYTES]),
        refusal(13, 830)
    );
}

#[test]
fn the_edges_of_the_normal_form() {
    becomes(&[reverse_area(2, 3276, 0)], &[reverse_area(1, 32760, 0)]);
    becomes(&[reverse_area(2, 3277, 0)], &[reverse_area(2, 3277, 0)]);
    becomes(&[reverse_area(2, 0, 3277)], &[reverse_area(2, 0, 3277)]);
    becomes(&[position(2, 104_857)], &[position(1, 1_048_570)]);
    becomes(&[position(2, 104_858)], &[position(2, 104_858)]);
    becomes(&[position(0, 1_048_570)], &[position(1, 104_857)]);
    becomes(
        &[text(164, 2, [5, 32767], 9)],
        &[text(164, 1, [50, 32767], 9)],
    );
    becomes(
        &[text(164, 0, [50, 32767], 9)],
        &[text(164, 1, [5, 32767], 9)],
    );
    // The distance to the text has no such exception.
    becomes(
        &[text(164, 2, [32767, 5], 9)],
        &[text(164, 2, [32767, 5], 9)],
    );
    // Each packet is for itself.
    becomes(
        &[
            reverse_area(0, 200, 1005),
            position(2, 7),
            reverse_area(2, 1, 2),
        ],
        &[
            reverse_area(0, 200, 1005),
            position(1, 70),
            reverse_area(1, 10, 20),
        ],
    );
}

#[test]
fn repeats() {
    refused(&telegram(&[danger(1), danger(1)]), 10, 82);
    assert_eq!(accepted(&telegram(&[danger(0), danger(1)])), 106);
    let twice = [reverse_area(1, 1, 1), reverse_area(1, 1, 1)];
    assert_eq!(accepted(&telegram(&twice)), 58 + 158);
    // Two gradient profiles for a train that runs forward: the second is at bit 104.
    refused(&telegram(&[gradients(1), gradients(2)]), 10, 112);
}
