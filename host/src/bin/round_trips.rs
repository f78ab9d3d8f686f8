//! What the proved library's round trips have to answer and to leave: read and written again,
//! written and read again, normalised twice, and two telegrams compared by their normal forms;
//! each with too little room in the one buffer, in the other, and then with just enough in both.
//! Every room is tested first, and a refusal leaves everything lent as it was.

use plain::{check, normalise, read, write, Refusal, MAX_BYTES, MAX_VALUES};

/// The numbers that what is lent is full of.
const VALUE: u64 = 9_999;
const BYTE: u8 = 165;

const MARK: &[u8] = b"\x90\x02\x7f\x81\x25\xdf\xff\xc0";
const UNCLEAR_MARK: &[u8] = b"\x90\x02\x7f\x81\x25\xdf\xff\xc1";
const STOP: &[u8] =
    b"\x90\x02\x7f\x81\x25\xdf\xcb\x10\x18\x01\x50\x0c\xa1\x10\x0c\x22\x50\x0c\x3f\xc0";
const TENS: &[u8] = b"\x90\x02\x7f\x81\x25\xdf\xcb\x10\x27\x80\xd0\x1c\x40\x0c\x80\xc8\x7f\x80";
const METRES: &[u8] = b"\x90\x02\x7f\x81\x25\xdf\xcb\x10\x27\x80\xd0\x1c\x20\x7d\x07\xd0\x7f\x80";
const FURTHER: &[u8] = b"\x90\x02\x7f\x81\x25\xdf\xcb\x10\x27\x80\xd0\x1c\x20\x7d\x47\xd0\x7f\x80";
const UNCLEAR: &[u8] = b"\x90\x02\x7f\x81\x25\xdf\xcb\x10\x27\x80\xd0\x1c\x20\x7d\x47\xd0\x7f\x81";

/// The bits of the last four.
const LONG: u64 = 137;

const VALUES: [u64; 12] = [1, 16, 0, 0, 1, 0, 255, 9, 3007, 1, 255, 0];

fn main() {
    rewrites();
    rereads();
    renormalises();
    compares();
}

fn rewrites() {
    let none: &[u8] = b"";
    for (s, n) in [
        (MARK, 58),
        (UNCLEAR_MARK, 58),
        (MARK, 59),
        (none, u64::MAX),
        (STOP, 154),
    ] {
        for (values, bytes) in [(829, 104), (830, 103), (830, 104)] {
            let (mut run, mut out) = ([VALUE; 832], [BYTE; 106]);
            let answer = roomed(values, bytes, || {
                let count = read(s, n, &mut run[..values])?;
                write(&run[..count], &mut out[..bytes])
            });
            print!("rewritten of {n}, lent {values} and {bytes}:");
            show(answer);
            show_values(&run);
            show_bytes(&out);
        }
    }
}

fn rereads() {
    let mut version = VALUES;
    version[1] = 33;
    for list in [&VALUES[..11], &version[..11], &VALUES[..10], &VALUES[..12]] {
        for (bytes, values) in [(103, 830), (104, 829), (104, 830)] {
            let (mut run, mut out) = ([VALUE; 832], [BYTE; 106]);
            let answer = roomed(values, bytes, || {
                let n = write(list, &mut out[..bytes])?;
                let long = n.div_ceil(8) as usize;
                Ok(read(&out[..long], n, &mut run[..values])? as u64)
            });
            print!("reread of {}, lent {bytes} and {values}:", list.len());
            show(answer);
            show_bytes(&out);
            show_values(&run);
        }
    }
}

/// Bytes lent for a first and for a second normal form.
const BYTES: [(usize, usize); 3] = [(103, 104), (104, 103), (104, 104)];

fn renormalises() {
    for n in [LONG, LONG - 1, LONG + 1] {
        for (first, second) in BYTES {
            let (mut x, mut y) = ([BYTE; 106], [BYTE; 106]);
            let answer = roomed(MAX_VALUES, first.min(second), || {
                normalise(TENS, n, &mut x[..first])?;
                normalise(&x[..TENS.len()], n, &mut y[..second])?;
                Ok(n)
            });
            print!("renormalised of {n}, lent {first} and {second}:");
            show(answer);
            show_bytes(&x);
            show_bytes(&y);
        }
    }
}

fn compares() {
    for (s, t, m) in [
        (TENS, METRES, LONG),
        (TENS, FURTHER, LONG),
        (TENS, MARK, 58),
        (TENS, UNCLEAR, LONG),
        (UNCLEAR, TENS, LONG),
        (UNCLEAR, UNCLEAR, LONG),
    ] {
        for (first, second) in BYTES {
            let (mut x, mut y) = ([BYTE; 106], [BYTE; 106]);
            print!("says_same of {LONG} and {m}, lent {first} and {second}:");
            compare(s, t, m, &mut x[..first], &mut y[..second]);
            show_bytes(&x);
            show_bytes(&y);
        }
    }
}

/// Both rooms, then both telegrams, and then their normal forms.
fn compare(s: &[u8], t: &[u8], m: u64, x: &mut [u8], y: &mut [u8]) {
    let first = roomed(MAX_VALUES, x.len(), || Ok(0));
    let second = roomed(MAX_VALUES, y.len(), || Ok(0));
    let answers = [
        ("first", first),
        ("second", second),
        ("first", check(s, LONG).map(|_| 0)),
        ("second", check(t, m).map(|_| 0)),
    ];
    for (which, answer) in answers {
        if answer.is_err() {
            print!(" {which}");
            return show(answer);
        }
    }
    let both = normalise(s, LONG, x).and_then(|()| normalise(t, m, y));
    assert!(both.is_ok(), "what is accepted has a normal form");
    println!("{}", if x == y { " same" } else { " other" });
}

/// What a call answers that is lent so many values and bytes: nothing is done where one is short.
fn roomed(
    values: usize,
    bytes: usize,
    call: impl FnOnce() -> Result<u64, Refusal>,
) -> Result<u64, Refusal> {
    if values < MAX_VALUES || bytes < MAX_BYTES {
        let mut none: [u8; 0] = [];
        return write(&[], &mut none);
    }
    call()
}

fn show(answer: Result<u64, Refusal>) {
    match answer {
        Ok(n) => println!(" ok {n}"),
        Err(refusal) => println!(" refused {} {}", refusal.number, refusal.place),
    }
}

fn show_values(run: &[u64]) {
    for (i, value) in run.iter().enumerate().filter(|(_, value)| **value != VALUE) {
        print!(" {i}={value}");
    }
    println!();
}

fn show_bytes(bytes: &[u8]) {
    for (i, byte) in bytes.iter().enumerate().filter(|(_, byte)| **byte != BYTE) {
        print!(" {i}={byte}");
    }
    println!();
}
