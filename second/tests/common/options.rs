//! The options of a sound packet.

/// The codes and values up to the end option, without padding.
pub fn options(packet: &[u8]) -> Vec<(u8, &[u8])> {
    let mut rest = &packet[240..];
    let mut found = Vec::new();
    loop {
        match *rest {
            [255, ..] => return found,
            [0, ..] => rest = &rest[1..],
            [code, length, ..] => {
                let (value, behind) = rest[2..].split_at(usize::from(length));
                found.push((code, value));
                rest = behind;
            }
            _ => panic!("no end option"),
        }
    }
}

/// The codes alone.
pub fn codes(packet: &[u8]) -> Vec<u8> {
    options(packet).into_iter().map(|option| option.0).collect()
}

/// The value of an option, if it is there.
pub fn option(packet: &[u8], wanted: u8) -> Option<&[u8]> {
    let found = options(packet)
        .into_iter()
        .find(|option| option.0 == wanted);
    found.map(|(_, value)| value)
}
