//! The refusals that only the writer gives.

use plain::worked::*;
use plain::{write, MAX_BYTES};

/// What values are refused by, having left the output as it was.
fn by_values(values: &[u64]) -> (u32, u64) {
    let mut out = [0xa5; MAX_BYTES];
    let refusal = write(values, &mut out).expect_err("a refusal");
    assert_eq!(out, [0xa5; MAX_BYTES]);
    (refusal.number, refusal.place)
}

#[test]
fn number_12() {
    // Where the fields begin: header, ETCS-132, ETCS-42, end mark.
    let starts = [
        0, 1, 8, 9, 12, 15, 17, 25, 35, 49, 50, 58, 60, 73, 74, 82, 84, 97, 98, 108, 122, 186, 187,
    ];
    let draft = telegram(&[danger(1), session(0)]);
    assert_eq!(draft.entries.len(), starts.len());
    for (index, (entry, place)) in draft.entries.iter().zip(starts).enumerate() {
        let Some(over) = 1u64.checked_shl(entry.width) else {
            continue;
        };
        for value in [over, over | entry.value, u64::MAX] {
            let mut values = draft.values();
            values[index] = value;
            assert_eq!(by_values(&values), (12, place));
        }
    }
}

#[test]
fn number_13_comes_after_12_and_5() {
    let longest = |characters| telegram(&[text(92 + 8 * characters, 1, [0, 0], characters)]);
    let values = longest(86).values();
    assert_eq!(by_values(&values), (13, 830));
    assert_eq!(by_values(&values[..values.len() - 1]), (5, 830));
    assert_eq!(
        by_values(&[&values[..values.len() - 1], &[256]].concat()),
        (12, 830)
    );
    // From 87 characters on it is a character that has no room.
    assert_eq!(by_values(&longest(87).values()), (13, 830));
    let mut values = longest(87).values();
    let last_character = values.len() - 2;
    values[last_character] = 256;
    assert_eq!(by_values(&values), (12, 830));
    assert_eq!(by_values(&values[..last_character]), (5, 830));
}

#[test]
fn number_13_is_at_the_field_that_does_not_fit() {
    let after = |characters, packet: Vec<Cell>| {
        let text = text(92 + 8 * characters, 1, [0, 0], characters);
        by_values(&telegram(&[text, packet]).values())
    };
    // Texts of 85, 84 and 83 characters end at bits 822, 814 and 806.
    assert_eq!(after(85, danger(1)), (13, 830), "Q_DIR");
    assert_eq!(after(84, danger(1)), (13, 824), "L_PACKET");
    assert_eq!(after(83, danger(1)), (13, 830), "the end mark");
    assert_eq!(after(83, position(1, 0)), (13, 829), "Q_SCALE");
    assert_eq!(after(83, session(0)), (13, 830), "NID_C");
    // Texts of 82 and 75 characters end at bits 798 and 742.
    assert_eq!(after(82, session(0)), (13, 822), "NID_C");
    assert_eq!(after(75, session(0)), (13, 790), "NID_RADIO");
}
