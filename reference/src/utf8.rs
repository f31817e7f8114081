//! UTF-8 by the paper's condensed rule, which is wider than RFC 3629.
//!
//! It accepts E0 80 80, ED A0 80 and F4 BF BF BF, so the standard library's check will not do.

/// Where the bytes stop being a text: the length of the longest front that a text can begin with.
///
/// So it is the offset of the first byte that cannot be there, or the length where the bytes end too
/// early. `None` if they are a text.
pub fn stop(bytes: &[u8]) -> Option<usize> {
    let mut rest = bytes;
    while let Some(character) = fronts(rest, is_character).next() {
        rest = &rest[character..];
    }
    if rest.is_empty() {
        return None;
    }
    let whole = bytes.len() - rest.len();
    let begun = fronts(rest, begins_character).max();
    Some(whole + begun.unwrap_or(0))
}

/// The lengths of the fronts of 1 to 4 bytes for which this holds.
fn fronts(bytes: &[u8], holds: fn(&[u8]) -> bool) -> impl Iterator<Item = usize> + '_ {
    (1..=4).filter(move |length| bytes.get(..*length).is_some_and(holds))
}

/// Whether the bytes are one whole character.
fn is_character(bytes: &[u8]) -> bool {
    let Some((lead, continuation)) = bytes.split_first() else {
        return false;
    };
    let leads = match continuation.len() {
        0 => 0x00..=0x7F,
        1 => 0xC2..=0xDF,
        2 => 0xE0..=0xEF,
        3 => 0xF0..=0xF4,
        _ => return false,
    };
    leads.contains(lead) && continuation.iter().all(|byte| (0x80..=0xBF).contains(byte))
}

/// Whether at most 4 bytes are a character but for the last bytes of it, which are missing.
///
/// Those may be any continuation bytes, so one will do to try.
fn begins_character(bytes: &[u8]) -> bool {
    let mut completed = [0x80; 4];
    completed[..bytes.len()].copy_from_slice(bytes);
    (bytes.len() + 1..=4).any(|length| is_character(&completed[..length]))
}
