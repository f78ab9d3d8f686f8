//! Checks telegrams given as lines of the characters 0 and 1.

use plain::{check, MAX_BITS};
use std::io::{self, BufRead, BufReader, BufWriter, Read, Write};
use std::process::ExitCode;

/// A line with its newline that is still short enough to matter; anything longer is refused.
const LONGEST: u64 = MAX_BITS as u64 + 2;

fn main() -> ExitCode {
    match run(io::stdin().lock(), io::stdout().lock()) {
        Ok(()) => ExitCode::SUCCESS,
        Err(error) => {
            eprintln!("lines: {error}");
            ExitCode::FAILURE
        }
    }
}

fn run(input: impl Read, output: impl Write) -> io::Result<()> {
    let mut source = BufReader::with_capacity(1 << 16, input);
    let mut sink = BufWriter::with_capacity(1 << 16, output);
    let mut line = Vec::with_capacity(LONGEST as usize);
    loop {
        line.clear();
        source.by_ref().take(LONGEST).read_until(b'\n', &mut line)?;
        if line.is_empty() {
            break;
        }
        if line.last() == Some(&b'\n') {
            line.pop();
        } else if line.len() as u64 == LONGEST {
            // Refused whatever its other characters are, so they need not be kept.
            source.skip_until(b'\n')?;
        }
        answer(&line, &mut sink)?;
    }
    sink.flush()
}

fn answer(line: &[u8], sink: &mut impl Write) -> io::Result<()> {
    let mut packed = [0; LONGEST.div_ceil(8) as usize];
    let Some(bytes) = pack(line, &mut packed) else {
        return writeln!(sink, "refused 2 0");
    };
    match check(bytes, line.len() as u64) {
        Ok(count) => writeln!(sink, "ok {} {count}", line.len()),
        Err(refusal) => writeln!(sink, "refused {} {}", refusal.number, refusal.place),
    }
}

/// The line's bits, if it has no other characters than 0 and 1.
fn pack<'a>(line: &[u8], packed: &'a mut [u8]) -> Option<&'a [u8]> {
    let mut length = 0;
    let mut other = 0;
    for (eight, byte) in line.chunks(8).zip(packed.iter_mut()) {
        let mut characters = [b'0'; 8];
        characters[..eight.len()].copy_from_slice(eight);
        let word = u64::from_le_bytes(characters) ^ u64::from_le_bytes([b'0'; 8]);
        other |= word & !0x0101_0101_0101_0101;
        // The lowest bits of the eight characters, brought together in the highest byte.
        let bits = (word & 0x0101_0101_0101_0101).wrapping_mul(0x8040_2010_0804_0201);
        *byte = (bits >> 56) as u8;
        length += 1;
    }
    (other == 0).then(|| &packed[..length])
}
