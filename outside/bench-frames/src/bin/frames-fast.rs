//! A plain program that does what `frames` does, written for speed: big
//! reads, one buffer, no allocation for a line.

use std::fs::File;
use std::io::{self, Read, Write};
use std::os::fd::AsFd;

/// The bytes asked for in one read.
const READ: usize = 1 << 20;
/// The output is written when it is longer than this.
const WRITE: usize = 1 << 16;
/// The digits of the longest frame.
const MOST_DIGITS: usize = 418;
/// Room for the bytes of the longest frame, in blocks of 16.
type Bytes = [u8; 224];

fn main() -> io::Result<()> {
    // The handles of the standard library keep a buffer of their own, so the
    // files under them are used.
    let mut input = File::from(io::stdin().as_fd().try_clone_to_owned()?);
    let mut output = File::from(io::stdout().as_fd().try_clone_to_owned()?);
    let mut buffer = vec![0u8; READ + MOST_DIGITS + 1];
    let mut out: Vec<u8> = Vec::with_capacity(WRITE + 128);
    let mut bytes: Bytes = [0; 224];
    // Bytes begin..end of the buffer are read and not yet judged.
    let mut end = 0;
    // A line longer than any frame has been begun and is being passed over.
    let mut passing_over = false;

    loop {
        let read = match input.read(&mut buffer[end..]) {
            Ok(n) => n,
            Err(e) if e.kind() == io::ErrorKind::Interrupted => continue,
            Err(e) => return Err(e),
        };
        if read == 0 {
            if end > 0 || passing_over {
                out.extend_from_slice(b"R 3\n");
            }
            break;
        }
        // What was there before this read has no newline in it.
        let mut searched = end;
        end += read;
        let mut begin = 0;
        while let Some(offset) = newline(&buffer[searched..end]) {
            let at = searched + offset;
            if passing_over {
                passing_over = false;
                out.extend_from_slice(b"R 3\n");
            } else {
                judge(&buffer[begin..at], &mut bytes, &mut out);
            }
            begin = at + 1;
            searched = begin;
            if out.len() > WRITE {
                output.write_all(&out)?;
                out.clear();
            }
        }
        if passing_over || end - begin > MOST_DIGITS {
            passing_over = true;
            end = 0;
        } else {
            buffer.copy_within(begin..end, 0);
            end -= begin;
        }
    }
    output.write_all(&out)
}

/// The place of the first newline.
fn newline(bytes: &[u8]) -> Option<usize> {
    const STEP: usize = 32;
    let mut at = 0;
    for chunk in bytes.chunks_exact(STEP) {
        let mut found = 0u8;
        for &b in chunk {
            found |= (b == b'\n') as u8;
        }
        if found != 0 {
            break;
        }
        at += STEP;
    }
    bytes[at..]
        .iter()
        .position(|&b| b == b'\n')
        .map(|offset| at + offset)
}

/// The bytes of 32 digits. The flag is not 0 if one is no digit.
#[inline]
fn decode_block(digits: &[u8; 32], bytes: &mut [u8; 16]) -> u8 {
    let mut nibbles = [0u8; 32];
    let mut bad = 0u8;
    for i in 0..32 {
        let low = digits[i].wrapping_sub(b'0');
        let high = digits[i].wrapping_sub(b'a');
        let is_low = low < 10;
        let is_high = high < 6;
        nibbles[i] = if is_low { low } else { high.wrapping_add(10) };
        bad |= !(is_low | is_high) as u8;
    }
    for i in 0..16 {
        bytes[i] = nibbles[2 * i] << 4 | nibbles[2 * i + 1] & 15;
    }
    bad
}

/// Puts the bytes of the digits in `bytes`. False if one is no digit.
#[inline]
fn decode(digits: &[u8], bytes: &mut Bytes) -> bool {
    let mut bad = 0;
    let mut to = bytes.chunks_exact_mut(16);
    let blocks = digits.chunks_exact(32);
    let rest = blocks.remainder();
    for (block, to) in blocks.zip(&mut to) {
        if let (Ok(block), Ok(to)) = (block.try_into(), to.try_into()) {
            bad |= decode_block(block, to);
        }
    }
    if !rest.is_empty() {
        let mut last = [b'0'; 32];
        last[..rest.len()].copy_from_slice(rest);
        if let Some(Ok(to)) = to.next().map(|to| to.try_into()) {
            bad |= decode_block(&last, to);
        }
    }
    bad == 0
}

/// Six bytes of a session as one number: the session number over the heads.
/// There are two bytes or more before them.
#[inline]
fn session(bytes: &Bytes, at: usize) -> u64 {
    let mut eight = [0; 8];
    eight.copy_from_slice(&bytes[at - 2..at + 6]);
    u64::from_be_bytes(eight) & 0xffff_ffff_ffff
}

#[inline]
fn number4(bytes: &Bytes, at: usize) -> u32 {
    u32::from_be_bytes([bytes[at], bytes[at + 1], bytes[at + 2], bytes[at + 3]])
}

/// Judges the digits of a line and puts the answer in the output.
fn judge(line: &[u8], bytes: &mut Bytes, out: &mut Vec<u8>) {
    if !accept(line, bytes, out) {
        out.extend_from_slice(b"R 3\n");
    }
}

fn accept(line: &[u8], bytes: &mut Bytes, out: &mut Vec<u8>) -> bool {
    if line.len() == 12 {
        if !decode(line, bytes) || bytes[0] != 2 {
            return false;
        }
        let view = number4(bytes, 1);
        if view == 0 || bytes[5] > 15 {
            return false;
        }
        out.extend_from_slice(b"A ");
        decimal(out, view, b' ');
        decimal(out, bytes[5] as u32, b'\n');
        return true;
    }
    if line.len() < 226 || line.len() > MOST_DIGITS || (line.len() - 226) % 12 != 0 {
        return false;
    }
    let count = (line.len() - 226) / 12;
    if !decode(line, bytes) || bytes[0] != 1 || bytes[112] as usize != count {
        return false;
    }
    let view = number4(bytes, 1);
    let sender = bytes[5];
    if view == 0 || sender > 15 {
        return false;
    }
    let number = number4(bytes, 6);
    let primary = session(bytes, 10);
    let own = 1u64 << sender;
    let primary_number = primary >> 16;
    if primary != 0 && (primary & own == 0 || primary_number > number as u64) {
        return false;
    }
    // The last formed of heads in last primary are the same; others are none
    // or hold both heads and have a lower number, so rule 7 follows for them.
    for q in 0..16 {
        let formed = session(bytes, 16 + 6 * q);
        let good = if primary >> q & 1 == 1 {
            formed == primary
        } else {
            let both = own | 1 << q;
            formed == 0 || (formed & both == both && formed >> 16 < primary_number)
        };
        if !good {
            return false;
        }
    }
    // A number has to be above the one before; at least 1 comes with it, as
    // the number before the first is 0 for a last primary that is none.
    let mut before = primary_number;
    for i in 0..count {
        let place = session(bytes, 113 + 6 * i);
        if place & own == 0 || place >> 16 <= before {
            return false;
        }
        before = place >> 16;
    }
    if before > number as u64 {
        return false;
    }

    out.extend_from_slice(b"S ");
    decimal(out, view, b' ');
    decimal(out, sender as u32, b' ');
    decimal(out, number, b' ');
    out.extend_from_slice(&line[28..32]);
    out.push(b' ');
    if primary == 0 {
        out.extend_from_slice(b"-1 ");
    } else {
        decimal(out, primary_number as u32, b' ');
    }
    decimal(out, count as u32, b'\n');
    true
}

/// The decimal digits of 00 to 99.
const PAIRS: [u8; 200] = {
    let mut pairs = [0; 200];
    let mut i = 0;
    while i < 100 {
        pairs[2 * i] = b'0' + (i / 10) as u8;
        pairs[2 * i + 1] = b'0' + (i % 10) as u8;
        i += 1;
    }
    pairs
};

/// Puts a number in decimal and one byte after it.
#[inline]
fn decimal(out: &mut Vec<u8>, mut value: u32, after: u8) {
    if value < 10 {
        out.extend_from_slice(&[b'0' + value as u8, after]);
        return;
    }
    let mut digits = [0u8; 11];
    let mut at = 10;
    digits[10] = after;
    while value >= 10 {
        let pair = 2 * (value % 100) as usize;
        value /= 100;
        at -= 2;
        digits[at] = PAIRS[pair];
        digits[at + 1] = PAIRS[pair + 1];
    }
    if value > 0 {
        at -= 1;
        digits[at] = b'0' + value as u8;
    }
    out.extend_from_slice(&digits[at..]);
}
