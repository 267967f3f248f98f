//! Numbers of 32 bits, whole and scaled.

use super::said::quoted;

fn all_digits(digits: &str, radix: u32) -> bool {
    !digits.is_empty() && digits.chars().all(|c| c.is_digit(radix))
}

fn too_large(word: &str) -> String {
    format!("{} has more than 32 bits", quoted(word))
}

/// A number of 32 bits: decimal, hexadecimal with 0x, or a negative decimal in
/// two's complement.
pub fn number(word: &str) -> Result<u32, String> {
    let parsed = match (word.strip_prefix("0x"), word.strip_prefix('-')) {
        (Some(digits), _) if all_digits(digits, 16) => u32::from_str_radix(digits, 16).ok(),
        (None, Some(digits)) if all_digits(digits, 10) => {
            word.parse::<i32>().ok().map(|number| number as u32)
        }
        (None, None) if all_digits(word, 10) => word.parse().ok(),
        _ if word.is_empty() => return Err("a number is missing".to_string()),
        _ if word.contains('.') => {
            return Err(format!("{} is no whole number", quoted(word)));
        }
        _ => return Err(format!("{} is no number", quoted(word))),
    };
    parsed.ok_or_else(|| too_large(word))
}

/// A number as a person writes it, times a scale of 1, 10, 100 and so on: with
/// scale 10, 196.5 is 1965. A number with 0x is not scaled.
pub fn scaled(word: &str, scale: u32) -> Result<u32, String> {
    if word.starts_with("0x") {
        return number(word);
    }
    let (digits, is_negative) = match word.strip_prefix('-') {
        Some(digits) => (digits, true),
        None => (word, false),
    };
    let (whole, rest) = digits.split_once('.').unwrap_or((digits, ""));
    let has_point = digits.contains('.');
    let sign = if is_negative { "-" } else { "" };
    let meant = match (all_digits(whole, 10), all_digits(rest, 10)) {
        (false, true) if whole.is_empty() => Some(format!("{sign}0.{rest}")),
        (true, false) if has_point && rest.is_empty() => Some(format!("{sign}{whole}")),
        _ => None,
    };
    if let Some(meant) = meant {
        return Err(format!("{} is no number; write {meant}", quoted(word)));
    }
    if !all_digits(whole, 10) || has_point && !all_digits(rest, 10) {
        return number(word);
    }
    let places = scale.ilog10() as usize;
    if rest.len() > places {
        let word = quoted(word);
        return Err(match places {
            0 => format!("{word} is no whole number, and the drum's file gives no scale"),
            _ => format!("{word} has more decimals than the scale {scale} takes"),
        });
    }
    let digits = format!("{whole}{rest:0<places$}");
    let value = digits.parse::<i64>().map_err(|_| too_large(word))?;
    let value = if is_negative { -value } else { value };
    let fits = u32::try_from(value).ok();
    let fits = fits.or_else(|| i32::try_from(value).ok().map(|value| value as u32));
    fits.ok_or_else(|| too_large(word))
}

/// The text of a number, from which [`scaled`] makes it again. With a scale, numbers
/// from 2^31 on are negative.
pub fn scaled_text(value: u32, scale: u32) -> String {
    let places = scale.ilog10() as usize;
    if places == 0 {
        return value.to_string();
    }
    let signed = value as i32;
    let sign = if signed < 0 { "-" } else { "" };
    let (whole, rest) = (signed.unsigned_abs() / scale, signed.unsigned_abs() % scale);
    format!("{sign}{whole}.{rest:0>places$}")
}
