//! Arithmetic and conditions, which guest and machine share.

const MODULUS: u64 = 1 << 32;

/// 'ADD, SUB: modulo 2^32'
pub fn add(x: u32, y: u32) -> u32 {
    ((u64::from(x) + u64::from(y)) % MODULUS) as u32
}

/// 'ADD, SUB: modulo 2^32'
pub fn sub(x: u32, y: u32) -> u32 {
    ((u64::from(x) + MODULUS - u64::from(y)) % MODULUS) as u32
}

/// 'AND, OR: bit by bit'
pub fn and(x: u32, y: u32) -> u32 {
    x & y
}

/// 'AND, OR: bit by bit'
pub fn or(x: u32, y: u32) -> u32 {
    x | y
}

/// A cell as a signed number: from 2^31 on, the cell less 2^32.
fn signed(x: u32) -> i64 {
    let x = i64::from(x);
    if x < 1 << 31 {
        x
    } else {
        x - (1 << 32)
    }
}

/// 'SAR: ra as two's complement, divided by 2^v, rounded down'
pub fn sar(x: u32, v: u32) -> u32 {
    let divided = signed(x).div_euclid(1 << v);
    divided.rem_euclid(1 << 32) as u32
}

/// 'SHL: high bits lost'
pub fn shl(x: u32, v: u32) -> u32 {
    (u64::from(x) * (1 << v) % MODULUS) as u32
}

/// 'Condition c: 0 always, 1 ra = rb, 2 ra below rb unsigned, 3 ra less than rb
/// as two's complement.'
pub fn holds(c: u32, x: u32, y: u32) -> bool {
    match c {
        0 => true,
        1 => x == y,
        2 => x < y,
        3 => signed(x) < signed(y),
        _ => unreachable!("no instruction or command has condition {c}"),
    }
}
