//! The lease query as the desk writes it (document 02, d).
//!
//! There is one call for each key. What is written is a query that the box
//! answers: document 01's checks 1 to 7 pass with the key that was given.

use crate::lease_query::Key;
use crate::packet::{
    Writer, CHADDR, CHADDR_MAX, CIADDR, CLIENT_ID, COOKIE, END, GIADDR, HLEN, HTYPE, LEASEQUERY,
    MAGIC, MESSAGE_TYPE, OP, OPTIONS, REQUEST, XID,
};

/// Least room for a query, whatever its key: the fixed fields, option 53, the
/// longest option 61 and the end option.
pub const QUERY_MIN: usize = 501;
/// Octets that an option's value can have.
const VALUE_MAX: usize = 255;

/// Writes a query by address at the front of `query`; the octets written.
///
/// All three calls refuse with 19 a giaddr or a key that the box would
/// refuse, or an id that no option can hold; then with 32 a buffer under 501
/// octets, even where the query would fit.
pub fn by_address(xid: u32, giaddr: u32, address: u32, query: &mut [u8]) -> Result<usize, u8> {
    write(xid, giaddr, &Key::Address(address), query)
}

/// Writes a query by hardware address, whose length is the slice's.
pub fn by_hardware(
    xid: u32,
    giaddr: u32,
    htype: u8,
    address: &[u8],
    query: &mut [u8],
) -> Result<usize, u8> {
    write(xid, giaddr, &Key::Hardware { htype, address }, query)
}

/// Writes a query by client id. An id of 65 to 255 octets is written too,
/// though no record has one.
pub fn by_client_id(xid: u32, giaddr: u32, id: &[u8], query: &mut [u8]) -> Result<usize, u8> {
    write(xid, giaddr, &Key::ClientId(id), query)
}

/// Whether the box takes this key, and an option can hold it. Of a hardware
/// address the length alone decides, as its type and octets may all be 0.
fn is_sound(key: &Key) -> bool {
    match key {
        Key::Address(address) => *address != 0,
        Key::Hardware { address, .. } => (1..=CHADDR_MAX).contains(&address.len()),
        Key::ClientId(id) => (2..=VALUE_MAX).contains(&id.len()),
    }
}

/// The refusals in their order, or the query.
fn write(xid: u32, giaddr: u32, key: &Key, query: &mut [u8]) -> Result<usize, u8> {
    if giaddr == 0 || !is_sound(key) {
        return Err(19);
    }
    if query.len() < QUERY_MIN {
        return Err(32);
    }
    write_fixed(xid, giaddr, key, &mut query[..OPTIONS]);
    let mut writer = Writer {
        packet: query,
        at: OPTIONS,
    };
    writer.option(MESSAGE_TYPE, &[LEASEQUERY]);
    if let Key::ClientId(id) = key {
        writer.option(CLIENT_ID, id);
    }
    writer.octets(&[END]);
    Ok(writer.at)
}

/// The fixed fields: those of other keys stay zero, so that there is one key.
fn write_fixed(xid: u32, giaddr: u32, key: &Key, fixed: &mut [u8]) {
    fixed.fill(0);
    fixed[OP] = REQUEST;
    fixed[XID..XID + 4].copy_from_slice(&xid.to_be_bytes());
    fixed[GIADDR..GIADDR + 4].copy_from_slice(&giaddr.to_be_bytes());
    fixed[COOKIE..].copy_from_slice(&MAGIC);
    match key {
        Key::Address(address) => {
            fixed[CIADDR..CIADDR + 4].copy_from_slice(&address.to_be_bytes());
        }
        Key::Hardware { htype, address } => {
            fixed[HTYPE] = *htype;
            fixed[HLEN] = address.len() as u8;
            fixed[CHADDR..CHADDR + address.len()].copy_from_slice(address);
        }
        Key::ClientId(_) => {}
    }
}

#[cfg(test)]
mod tests {
    use super::*;
    use crate::lease_query::{answer, LEASEUNKNOWN};

    const XID_GIVEN: u32 = 0x0102_0304;
    const RELAY: u32 = 0x0a00_0001;

    /// The fixed fields of a query without a key.
    fn fixed() -> Vec<u8> {
        let mut fixed = vec![0; 240];
        fixed[0] = 1;
        fixed[4..8].copy_from_slice(&[1, 2, 3, 4]);
        fixed[24..28].copy_from_slice(&[10, 0, 0, 1]);
        fixed[236..].copy_from_slice(&[99, 130, 83, 99]);
        fixed
    }

    /// Writes into a buffer of 501 octets and compares all of it.
    fn assert_written(
        fixed: Vec<u8>,
        options: &[u8],
        write: impl Fn(&mut [u8]) -> Result<usize, u8>,
    ) {
        let mut query = [0xee; QUERY_MIN];
        let length = 240 + options.len();
        assert_eq!(write(&mut query), Ok(length));
        assert_eq!(query[..240], fixed);
        assert_eq!(query[240..length], *options);
        assert!(query[length..].iter().all(|&octet| octet == 0xee));
        let mut reply = [0; 648];
        let answered = answer(0, &[], [0; 4], &query[..length], &mut reply);
        assert_eq!(answered.map(|(kind, _)| kind), Ok(LEASEUNKNOWN));
    }

    /// The refusal in a buffer of so many octets, which are left alone.
    fn refusal(room: usize, write: impl Fn(&mut [u8]) -> Result<usize, u8>) -> Option<u8> {
        let mut query = vec![0xee; room];
        let refused = write(&mut query).err();
        assert!(refused.is_none() || query.iter().all(|&octet| octet == 0xee));
        refused
    }

    #[test]
    fn address_written() {
        let mut expected = fixed();
        expected[12..16].copy_from_slice(&[192, 0, 2, 7]);
        assert_written(expected, &[53, 1, 10, 255], |query| {
            by_address(XID_GIVEN, RELAY, 0xc000_0207, query)
        });
    }

    #[test]
    fn hardware_written() {
        let mut expected = fixed();
        expected[1..3].copy_from_slice(&[6, 3]);
        expected[28..31].copy_from_slice(&[7, 8, 9]);
        assert_written(expected, &[53, 1, 10, 255], |query| {
            by_hardware(XID_GIVEN, RELAY, 6, &[7, 8, 9], query)
        });
        let mut zeros = fixed();
        zeros[2] = 16;
        assert_written(zeros, &[53, 1, 10, 255], |query| {
            by_hardware(XID_GIVEN, RELAY, 0, &[0; 16], query)
        });
    }

    #[test]
    fn client_id_written() {
        assert_written(fixed(), &[53, 1, 10, 61, 2, 0, 0, 255], |query| {
            by_client_id(XID_GIVEN, RELAY, &[0, 0], query)
        });
        let options = [&[53, 1, 10, 61, 255][..], &[9; 255], &[255]].concat();
        assert_written(fixed(), &options, |query| {
            by_client_id(XID_GIVEN, RELAY, &[9; 255], query)
        });
    }

    #[test]
    fn keys_refused() {
        let address = |address| refusal(501, |query| by_address(0, 1, address, query));
        assert_eq!((address(0), address(1)), (Some(19), None));
        let hardware =
            |octets| refusal(501, |query| by_hardware(0, 1, 1, &[7; 20][..octets], query));
        assert_eq!([0, 17].map(hardware), [Some(19); 2]);
        assert_eq!([1, 16].map(hardware), [None; 2]);
        let id = |octets| refusal(501, |query| by_client_id(0, 1, &[7; 300][..octets], query));
        assert_eq!([0, 1, 256, 300].map(id), [Some(19); 4]);
        assert_eq!([2, 64, 65, 255].map(id), [None; 4]);
    }

    #[test]
    fn giaddr_refused_and_then_the_buffer() {
        for (giaddr, room, expected) in [
            (0, 501, Some(19)),
            (0, 500, Some(19)),
            (1, 500, Some(32)),
            (1, 0, Some(32)),
            (1, 501, None),
        ] {
            let address = refusal(room, |query| by_address(0, giaddr, 1, query));
            let hardware = refusal(room, |query| by_hardware(0, giaddr, 1, &[7], query));
            let id = refusal(room, |query| by_client_id(0, giaddr, &[7; 2], query));
            assert_eq!([address, hardware, id], [expected; 3]);
        }
        assert_eq!(refusal(500, |query| by_address(0, 1, 0, query)), Some(19));
    }
}
