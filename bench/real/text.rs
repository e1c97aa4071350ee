//! Modified UTF-8, as JVM Specification 4.4.7 has it, for the plain program.

/// Whether the bytes are modified UTF-8: units of one byte, 01 to 7f; of two, for 0 and 80 to 7ff; of three, for 800 to ffff.
pub fn is_modified(mut bytes: &[u8]) -> bool {
    loop {
        bytes = match bytes {
            [] => return true,
            [0x01..=0x7f, rest @ ..] => rest,
            [0xc0, 0x80, rest @ ..] | [0xc2..=0xdf, 0x80..=0xbf, rest @ ..] => rest,
            [0xe0, 0xa0..=0xbf, 0x80..=0xbf, rest @ ..] => rest,
            [0xe1..=0xef, 0x80..=0xbf, 0x80..=0xbf, rest @ ..] => rest,
            _ => return false,
        }
    }
}

/// The printed form of a name: the units of modified UTF-8, or all bytes in hexadecimal.
pub fn printed(bytes: &[u8]) -> String {
    if !is_modified(bytes) {
        return bytes.iter().fold("\\x".into(), |text, byte| format!("{text}{byte:02x}"));
    }
    let mut text = String::new();
    let mut rest = bytes;
    while let [first, behind @ ..] = rest {
        let (unit, behind) = match (*first, behind) {
            (0..=0x7f, behind) => (u32::from(*first), behind),
            (0xc0..=0xdf, [second, behind @ ..]) => (u32::from(first & 0x1f) << 6 | u32::from(second & 0x3f), behind),
            (_, [second, third, behind @ ..]) => {
                (u32::from(first & 0xf) << 12 | u32::from(second & 0x3f) << 6 | u32::from(third & 0x3f), behind)
            }
            _ => return text,
        };
        rest = behind;
        match char::from_u32(unit) {
            Some(letter @ ' '..='~') if letter != '\\' => text.push(letter),
            _ => text += &format!("\\u{unit:04x}"),
        }
    }
    text
}
