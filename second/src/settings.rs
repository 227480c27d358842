//! The settings file (document 01, "Settings file"; document 02, A13, for its
//! fifth line).

use crate::timer::Setting;

#[derive(Clone, PartialEq, Eq, Debug, Default)]
pub struct Settings {
    pub key_number: u8,
    pub classmark: Vec<u8>,
    pub identity: Vec<u8>,
    pub conn_req_ms: u64,
    pub present_ms: u64,
}

/// The five names, in the order of the papers.
const NAMES: [&[u8]; 5] = [
    b"cksn=",
    b"classmark=",
    b"identity=",
    b"conn_req_ms=",
    b"present_ms=",
];

/// The settings, or the number of the line that is refused.
pub fn read(file: &[u8]) -> Result<Settings, usize> {
    let mut settings = Settings::default();
    let mut seen = [false; NAMES.len()];
    let mut lines = 0;
    let mut rest = file;
    while !rest.is_empty() {
        lines += 1;
        // A last line without LF is unreadable, good or not.
        let end = rest.iter().position(|&byte| byte == b'\n').ok_or(lines)?;
        let name = read_line(&rest[..end], &mut settings).ok_or(lines)?;
        if seen[name] {
            return Err(lines);
        }
        seen[name] = true;
        rest = &rest[end + 1..];
    }
    if seen.contains(&false) {
        return Err(lines + 1);
    }
    Ok(settings)
}

/// Stores the value of one line; gives the place of its name, or None if the line is unreadable.
fn read_line(line: &[u8], settings: &mut Settings) -> Option<usize> {
    let name = NAMES.iter().position(|name| line.starts_with(name))?;
    let value = &line[NAMES[name].len()..];
    match name {
        0 => settings.key_number = key_number(value)?,
        1 => settings.classmark = hexadecimal(value, 6, 6)?,
        2 => settings.identity = hexadecimal(value, 2, 16)?,
        3 => settings.conn_req_ms = milliseconds(value, Setting::Joining)?,
        _ => settings.present_ms = milliseconds(value, Setting::Invitation)?,
    }
    Some(name)
}

/// One digit 0 to 7.
fn key_number(value: &[u8]) -> Option<u8> {
    match value {
        [digit @ b'0'..=b'7'] => Some(digit - b'0'),
        _ => None,
    }
}

/// An even count of hexadecimal digits of either case, as octets.
fn hexadecimal(value: &[u8], fewest: usize, most: usize) -> Option<Vec<u8>> {
    if value.len() < fewest || value.len() > most || !value.len().is_multiple_of(2) {
        return None;
    }
    value
        .chunks(2)
        .map(|pair| Some(digit(pair[0])? << 4 | digit(pair[1])?))
        .collect()
}

fn digit(byte: u8) -> Option<u8> {
    match byte {
        b'0'..=b'9' => Some(byte - b'0'),
        b'a'..=b'f' => Some(byte - b'a' + 10),
        b'A'..=b'F' => Some(byte - b'A' + 10),
        _ => None,
    }
}

/// Decimal without a leading zero, within the setting's bounds.
fn milliseconds(value: &[u8], setting: Setting) -> Option<u64> {
    // Six digits hold the greatest of them; no digit, or a zero first, is none.
    if value.len() > 6 || !matches!(value.first(), Some(b'1'..=b'9')) {
        return None;
    }
    let mut number = 0;
    for byte in value {
        if !byte.is_ascii_digit() {
            return None;
        }
        number = number * 10 + u64::from(byte - b'0');
    }
    let (least, greatest) = setting.bounds();
    (least..=greatest).contains(&number).then_some(number)
}
