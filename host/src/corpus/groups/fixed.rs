//! Lines that do not depend on chance: worked groups, and the limits of lines and words.

/// Header, end mark and nothing else, as bytes and as bits.
const EMPTY: &str = "90027F8125DFFFC0:58";
const EMPTY_BITS: &str = "1001000000000010011111111000000100100101110111111111111111";
/// The two of a group of two, with nothing in them.
const PAIR: [&str; 2] = [EMPTY, "90127F8125DFFFC0:58"];

/// The worked groups.
const WORKED: [&str; 6] = [
    "90127F8125DFC6D01D20000C000FF0:116 90027F8125DFC15022A01E05E063002A80D907D00007F8:181",
    "9004838125DFE1100C3FC0:82 9014838125DFE1100C3FC0:82 9024038125DFE1100C3FC0:82",
    "90027F8125DFE1100C3FC0:82 90137F8125DFE2500C3FC0:82",
    "90127F8125DFE2500C21100C3FC0:106 90027F8125DFE1200C3FC0:82",
    "90127F8125DFE2500C3FC0:82 90027F8125DFE1100C3FC1:82",
    "",
];

/// Short words that are telegrams, sound or not, and words that are none.
const SHORT: [&str; 36] = [
    ":0",
    ":1",
    "0",
    "1",
    "00:0",
    "00:1",
    "0:0",
    "0:1",
    ":",
    "",
    "::",
    ":0:0",
    "a:8",
    "aB:8",
    "Ab:8",
    "ag:8",
    "g0:8",
    "0x10:8",
    "10:08",
    "10:00",
    "10:+8",
    "10:-8",
    "10: 8",
    "10:8 ",
    "10:8.",
    "10:8\r",
    "\r",
    "10:",
    "10",
    "01",
    "2",
    "012",
    "10\t01",
    "\0",
    "\u{e9}",
    "10:\u{661}",
];

/// Numbers in the place of 58, some of them none.
const NUMBERS: [&str; 10] = [
    "57",
    "59",
    "058",
    "18446744073709551615",
    "18446744073709551616",
    "18446744073709551674",
    "20000000000000000000",
    "100000000000000000058",
    "4294967354",
    "9223372036854775866",
];

/// Words at all limits.
fn words() -> Vec<String> {
    let mut words: Vec<String> = SHORT.map(String::from).to_vec();
    for characters in [57, 58, 830, 831, 1023, 1024, 1025, 2000] {
        words.push("1".repeat(characters));
    }
    for digits in [254, 255, 256, 257, 258] {
        words.push(format!("{}:58", "0".repeat(digits)));
    }
    for n in NUMBERS {
        words.push(EMPTY.replace("58", n));
    }
    words.push(EMPTY.to_lowercase());
    words.push(EMPTY_BITS.to_string());
    words
}

/// All of these lines, without their newlines.
pub fn fixed_lines() -> Vec<Vec<u8>> {
    let mut lines: Vec<String> = WORKED.map(String::from).to_vec();
    let [one, other] = PAIR;
    lines.extend([PAIR.join(" "), format!("{other} {one}")]);
    lines.push(format!("{EMPTY_BITS} {other}"));
    // All bytes of the group in one word, and the other one without any.
    let [first, second] = PAIR.map(|word| word.trim_end_matches(":58"));
    lines.push(format!("{first}{second}:58 :58"));
    lines.push(format!(":58 {first}{second}:58"));
    for word in words() {
        // Alone, as the first and as the last of two.
        lines.push(word.clone());
        lines.push(format!("{word} {other}"));
        lines.push(format!("{other} {word}"));
    }
    for count in [7, 8, 9, 15, 16, 17, 100] {
        lines.push(vec![EMPTY; count].join(" "));
        lines.push(vec!["1"; count].join(" "));
    }
    for line in [" ", "  ", "\r"] {
        lines.push(line.to_string());
        lines.push(format!("{line}{one} {other}"));
        lines.push(format!("{one}{line}{other}"));
        lines.push(format!("{one} {other}{line}"));
    }
    lines.into_iter().map(String::into_bytes).collect()
}
