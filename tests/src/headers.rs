//! Headers of COEFFICIENTS (data sheet 20.6 to 20.8), right and wrong, and what a right one gets sent.

use crate::library::{Device, Format};
use crate::random::Random;
use reference::pec;

/// The codes that carry a value in the format of a quantity, with the quantity's place in a page's formats, and whether they are written.
const VALUES: [(u8, usize, bool); 12] = [
    (0x46, 0, true),
    (0x4A, 0, true),
    (0x8C, 0, false),
    (0x55, 1, true),
    (0x57, 1, true),
    (0x58, 1, true),
    (0x59, 1, true),
    (0x88, 1, false),
    (0x4F, 2, true),
    (0x51, 2, true),
    (0x53, 2, true),
    (0x8D, 2, false),
];

/// The right headers: every code in both directions and in two that there are not.
pub fn every_code() -> Vec<Vec<u8>> {
    let directions = [0x00, 0x01, 0x02, 0xFF];
    let header = |code, direction| vec![0xC0, 0x30, 0x02, code, direction, 0xC1];
    let codes = 0..=0xFF;
    codes
        .flat_map(|code| directions.map(|direction| header(code, direction)))
        .collect()
}

/// Data and packet check of a right header on this device, or none where it gets 9.
pub fn sent(device: &Device, header: &[u8]) -> Option<Vec<u8>> {
    let page = device.pages.get(usize::from(device.unpaged.page))?;
    let (code, direction) = (header[3], header[4]);
    let row = VALUES.iter().find(|row| row.0 == code)?;
    let has = direction == 0x01 || direction == 0x00 && row.2;
    let Format { direct, m, b, r } = page.formats[row.1];
    if !has || !direct {
        return None;
    }
    let mut data = vec![0x05];
    data.extend(m.to_le_bytes());
    data.extend(b.to_le_bytes());
    data.push(r);
    data.push(pec::pec(&[header, &data].concat()));
    Some(data)
}

/// Headers with 30h that are not that of the call: every other count, every other last byte, every other length.
pub fn wrong(random: &mut Random) -> Vec<Vec<u8>> {
    let right = [0xC0, 0x30, 0x02, 0x46, 0x01, 0xC1];
    let mut headers = vec![vec![0xC0, 0x30, 0xC1]];
    for byte in 0..=0xFF {
        let (mut count, mut last) = (right, right);
        (count[2], last[5]) = (byte, byte);
        headers.extend([count, last].map(|header| header.to_vec()));
        // The length that the count asks for.
        let mut long = vec![0xC0, 0x30, byte];
        long.extend(random.bytes(byte.into()));
        long.push(0xC1);
        headers.push(long);
    }
    for length in 2..14 {
        for count in [0x00, 0x01, 0x02, 0x03] {
            let mut header = vec![0xC0, 0x30, count, 0x46, 0x01];
            header.extend(random.bytes(14));
            header.truncate(length - 1);
            header.push(0xC1);
            headers.push(header);
        }
    }
    let right = |header: &Vec<u8>| {
        matches!(header[..], [0xC0, 0x30, 0x02, _, _, 0xC1]) || header[1] != 0x30
    };
    headers.retain(|header| !right(header));
    headers
}
