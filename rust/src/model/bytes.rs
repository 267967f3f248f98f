//! Reads and writes the byte form of a routine.

use super::instructions::{judge, judge_fields};
use super::outputs::{deliver, refuse, room_for, Refused};
use super::words::{fields, word, Fields};
use crate::names::MOST_INSTRUCTIONS;
use crate::{Answer, Refusal};

/// The bytes that have not been read yet.
struct Rest<'a>(&'a [u8]);

impl Rest<'_> {
    /// Reads so many bytes as a number, 'low first'. '1: bytes end early.'
    fn number(&mut self, bytes: usize) -> Result<u32, Refusal> {
        if self.0.len() < bytes {
            return Err(Refusal::Short);
        }
        let (front, rest) = self.0.split_at(bytes);
        self.0 = rest;
        let mut number = 0;
        for &byte in front.iter().rev() {
            number = 256 * number + u32::from(byte);
        }
        Ok(number)
    }

    /// 'Each starts with a map byte: bit 0 kind, 1 d, 2 a, 3 b, 4 c, 5 v. Then
    /// only the fields whose bit stands, in that order, one byte each, v in
    /// four, low first. An absent field is 0.' 'Per instruction map 2, 1, 3, 2,
    /// 4'.
    fn instruction(&mut self) -> Result<u64, Refusal> {
        let map = self.number(1)?;
        if map >= 64 {
            return Err(Refusal::Foreign);
        }
        let mut read = Fields::default();
        let mut present_zero = false;
        let places = [
            (0, 1, &mut read.kind),
            (1, 1, &mut read.d),
            (2, 1, &mut read.a),
            (3, 1, &mut read.b),
            (4, 1, &mut read.c),
            (5, 4, &mut read.v),
        ];
        for (bit, bytes, field) in places {
            let stands = map / (1 << bit) % 2 == 1;
            if stands {
                *field = self.number(bytes)?;
                present_zero = present_zero || *field == 0;
            }
        }
        // A present field that is 0 is foreign matter (2), which comes between 3 and 4.
        let judged = judge_fields(read);
        if present_zero && judged != Err(Refusal::UnknownKind) {
            return Err(Refusal::Foreign);
        }
        judged.map(|_| word(read))
    }
}

/// 'Reading: 1 for the count, 5, 9; per instruction map 2, 1, 3, 2, 4; then 6.'
/// 'A routine's bytes: n in two bytes, low first, then n instructions.'
fn words_of(bytes: &[u8], room: usize) -> Result<Vec<u64>, Refused> {
    let mut rest = Rest(bytes);
    let n = match rest.number(2) {
        Ok(n) => n as usize,
        Err(refusal) => return refuse(refusal),
    };
    if n > MOST_INSTRUCTIONS {
        return refuse(Refusal::Oversize);
    }
    room_for(n, room)?;
    let mut words = Vec::new();
    for place in 0..n {
        match rest.instruction() {
            Ok(word) => words.push(word),
            Err(refusal) => return Err((refusal, place)),
        }
    }
    if !rest.0.is_empty() {
        return refuse(Refusal::Trailing);
    }
    Ok(words)
}

/// The bytes of one instruction. 'A field that is 0 is absent, HALT's kind and
/// r0 included.'
fn instruction_bytes(word: u64) -> Vec<u8> {
    let Fields {
        kind,
        d,
        a,
        b,
        c,
        v,
        ..
    } = fields(word);
    let mut map = 0;
    let mut bytes = Vec::new();
    for (bit, field) in [kind, d, a, b, c].into_iter().enumerate() {
        if field != 0 {
            map += 1 << bit;
            bytes.push(field as u8);
        }
    }
    if v != 0 {
        map += 1 << 5;
        bytes.extend(v.to_le_bytes());
    }
    bytes.insert(0, map);
    bytes
}

/// 'Writing: 5; per word 3, 2, 4; then 9.'
fn bytes_of(words: &[u64], room: usize) -> Result<Vec<u8>, Refused> {
    if words.len() > MOST_INSTRUCTIONS {
        return refuse(Refusal::Oversize);
    }
    let mut bytes = (words.len() as u16).to_le_bytes().to_vec();
    for (place, &word) in words.iter().enumerate() {
        match judge(word) {
            Ok(_) => bytes.extend(instruction_bytes(word)),
            Err(refusal) => return Err((refusal, place)),
        }
    }
    room_for(bytes.len(), room)?;
    Ok(bytes)
}

/// Reads a routine's bytes into words.
pub fn read(bytes: &[u8], words: &mut [u64]) -> Answer {
    deliver(words_of(bytes, words.len()), words)
}

/// Writes words as a routine's bytes.
pub fn write(words: &[u64], bytes: &mut [u8]) -> Answer {
    deliver(bytes_of(words, bytes.len()), bytes)
}
