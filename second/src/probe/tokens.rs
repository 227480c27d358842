//! The tokens of the line protocol: decimal numbers and lower-case hexadecimal
//! octet strings, `-` for the empty one.

use crate::own::Own;

/// Decimal digits without a leading zero, at most `greatest`.
pub fn number(token: &[u8], greatest: u32) -> Option<u32> {
    let plain = match token {
        [b'0'] => true,
        [b'1'..=b'9', rest @ ..] => rest.iter().all(u8::is_ascii_digit),
        _ => false,
    };
    // Ten digits hold every number that the protocol knows.
    if !plain || token.len() > 10 {
        return None;
    }
    let value = token
        .iter()
        .fold(0u64, |sum, digit| sum * 10 + u64::from(digit - b'0'));
    u32::try_from(value).ok().filter(|&value| value <= greatest)
}

/// A number that fits an octet.
pub fn small(token: &[u8], greatest: u8) -> Option<u8> {
    number(token, u32::from(greatest)).map(|value| value as u8)
}

/// An octet string of any length.
pub fn octets(token: &[u8]) -> Option<Vec<u8>> {
    match token {
        b"-" => Some(Vec::new()),
        b"" => None,
        _ if !token.len().is_multiple_of(2) => None,
        _ => token
            .chunks(2)
            .map(|pair| Some(digit(pair[0])? << 4 | digit(pair[1])?))
            .collect(),
    }
}

/// An octet string of exactly so many octets.
pub fn exactly<const LENGTH: usize>(token: &[u8]) -> Option<[u8; LENGTH]> {
    octets(token)?.try_into().ok()
}

/// The identity settings, `CKSN CLASSMARK IDENTITY`, of which the identity is read already.
pub fn own_of<'a>(key_number: &[u8], classmark: &[u8], identity: &'a [u8]) -> Option<Own<'a>> {
    Some(Own {
        key_number: small(key_number, 255)?,
        classmark: exactly(classmark)?,
        identity,
    })
}

/// A small number, or `-` for an absent one.
pub fn optional_small(token: &[u8]) -> Option<Option<u8>> {
    match token {
        b"-" => Some(None),
        _ => small(token, 255).map(Some),
    }
}

fn digit(byte: u8) -> Option<u8> {
    match byte {
        b'0'..=b'9' => Some(byte - b'0'),
        b'a'..=b'f' => Some(byte - b'a' + 10),
        _ => None,
    }
}

/// The token of an octet string.
pub fn hexadecimal(octets: &[u8]) -> String {
    const DIGITS: &[u8; 16] = b"0123456789abcdef";
    if octets.is_empty() {
        return "-".to_string();
    }
    let mut token = String::with_capacity(2 * octets.len());
    for octet in octets {
        token.push(char::from(DIGITS[usize::from(octet >> 4)]));
        token.push(char::from(DIGITS[usize::from(octet & 0x0F)]));
    }
    token
}

/// The token of an optional number.
pub fn optional_decimal(value: Option<u8>) -> String {
    match value {
        None => "-".to_string(),
        Some(number) => number.to_string(),
    }
}
