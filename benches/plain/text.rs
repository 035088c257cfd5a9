//! Numbers and addresses, read from bytes and put at the end of a text.

/// A decimal number up to `most`, without leading zeros.
pub fn number(text: &[u8], most: u32) -> Option<u32> {
    if text.is_empty() || text.len() > 5 || (text.len() > 1 && text[0] == b'0') {
        return None;
    }
    let mut value = 0;
    for byte in text {
        let digit = byte.wrapping_sub(b'0');
        if digit > 9 {
            return None;
        }
        value = 10 * value + u32::from(digit);
    }
    (value <= most).then_some(value)
}

pub fn address4(text: &[u8]) -> Option<u32> {
    let mut octets = 0;
    let mut address = 0;
    for octet in text.split(|byte| *byte == b'.') {
        address = address << 8 | number(octet, 255)?;
        octets += 1;
    }
    (octets == 4).then_some(address)
}

pub fn address6(text: &[u8]) -> Option<u128> {
    let mut address = 0u128;
    let mut groups = 0;
    let mut gap = None;
    let mut at = 0;
    if text.starts_with(b"::") {
        gap = Some(0);
        at = 2;
    }
    while at < text.len() {
        let first = at;
        let mut group = 0;
        while at < text.len() && text[at] != b':' {
            group = group << 4 | char::from(text[at]).to_digit(16)?;
            at += 1;
        }
        if at == first || at > first + 4 || groups == 8 {
            return None;
        }
        address = address << 16 | u128::from(group);
        groups += 1;
        if at + 1 == text.len() {
            return None;
        }
        at += 1;
        if at < text.len() && text[at] == b':' {
            if gap.replace(groups).is_some() {
                return None;
            }
            at += 1;
        }
    }
    with_gap(address, groups, gap)
}

/// The address of some groups, with groups of zeros where the gap is.
fn with_gap(address: u128, groups: u32, gap: Option<u32>) -> Option<u128> {
    match gap {
        None => (groups == 8).then_some(address),
        Some(0) => (groups < 8).then_some(address),
        Some(before) if groups < 8 => {
            let behind = 16 * (groups - before);
            let low = address & ((1 << behind) - 1);
            Some((address >> behind) << (16 * (8 - before)) | low)
        }
        Some(_) => None,
    }
}

pub fn put_number(text: &mut Vec<u8>, number: u32) {
    let mut digits = [0; 10];
    let mut first = digits.len();
    let mut rest = number;
    loop {
        first -= 1;
        digits[first] = b'0' + (rest % 10) as u8;
        rest /= 10;
        if rest == 0 {
            break;
        }
    }
    text.extend_from_slice(&digits[first..]);
}

pub fn put_address4(text: &mut Vec<u8>, address: u32) {
    let [first, octets @ ..] = address.to_be_bytes();
    put_number(text, first.into());
    for octet in octets {
        text.push(b'.');
        put_number(text, octet.into());
    }
}

/// Eight groups of four digits.
pub fn put_address6(text: &mut Vec<u8>, address: u128) {
    const DIGITS: &[u8; 16] = b"0123456789abcdef";
    let mut shown = [b':'; 39];
    for (place, byte) in address.to_be_bytes().into_iter().enumerate() {
        let at = 2 * place + place / 2;
        shown[at] = DIGITS[usize::from(byte >> 4)];
        shown[at + 1] = DIGITS[usize::from(byte & 15)];
    }
    text.extend_from_slice(&shown);
}
