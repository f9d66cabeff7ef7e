//! A device's file, as it is or with one fault or two.

use super::devices::Device;
use super::random::Random;

/// The file, one in `damaged_one_in` with a fault.
pub(super) fn device_bytes(random: &mut Random, device: &Device, damaged_one_in: usize) -> Vec<u8> {
    let mut bytes = device.encode();
    if random.one_in(damaged_one_in) {
        damage_device(random, &mut bytes);
        // A second fault shows which one is found first; it needs n to find the parts by.
        let n = device.owner.len();
        let has_parts = bytes.len() >= 9 + n && bytes[5..7] == (n as u16).to_be_bytes();
        if random.one_in(4) && has_parts {
            damage_device(random, &mut bytes);
        }
    }
    bytes
}

/// One fault in a device file; some of these happen to leave it as it was.
fn damage_device(random: &mut Random, bytes: &mut Vec<u8>) {
    let n = 256 * usize::from(bytes[5]) + usize::from(bytes[6]);
    let edges = bytes.len() - 9 - n;
    match random.below(17) {
        0 => {
            if random.one_in(2) {
                bytes[random.below(3)] = 0;
            }
            bytes.truncate(random.below(9));
        }
        1 => bytes[random.below(3)] = random.next() as u8,
        2 => bytes[random.between(3, 4)] = random.next() as u8,
        // Both numbers outside their limits.
        15 => bytes[5..9].copy_from_slice(&random.pick(&[[0, 0, 4, 1], [1, 1, 255, 255]])),
        3 => {
            let n = random.pick(&[0u16, 257, 256, 512, 0xFFFF, n as u16 + 1, n as u16 - 1]);
            bytes[5..7].copy_from_slice(&n.to_be_bytes());
        }
        4 => {
            let e = (edges / 2) as u16;
            let e = random.pick(&[1025, 1024, 0xFFFF, 0x0800, e + 1, e.wrapping_sub(1)]);
            bytes[7..9].copy_from_slice(&e.to_be_bytes());
        }
        5 => bytes.truncate(bytes.len() - random.between(1, bytes.len() - 8)),
        6 => {
            let more = random.between(1, 5);
            bytes.extend(random.bytes(more));
        }
        7 | 8 => bytes[9 + random.below(n)] = random.pick(&[3, 4, 255, 16, 2]),
        9 => {
            let at = random.below(bytes.len());
            bytes[at] = random.next() as u8;
        }
        10 if edges >= 2 => {
            // An edge turned round.
            let at = 9 + n + 2 * random.below(edges / 2);
            bytes.swap(at, at + 1);
        }
        11 if edges >= 2 => {
            // An edge from a location to itself.
            let at = 9 + n + 2 * random.below(edges / 2);
            bytes[at] = bytes[at + 1];
        }
        12 if edges >= 2 && n < 256 => {
            // An edge to the first location that isn't there.
            let at = 9 + n + 2 * random.below(edges / 2);
            bytes[at + 1] = n as u8;
        }
        13 if edges >= 4 => {
            // The same edge twice.
            let at = 9 + n + 2 * random.below(edges / 2 - 1);
            let edge = [bytes[at], bytes[at + 1]];
            bytes[at + 2..at + 4].copy_from_slice(&edge);
        }
        14 if edges >= 4 => {
            // Two edges in the wrong order.
            let at = 9 + n + 2 * random.below(edges / 2 - 1);
            bytes.swap(at, at + 2);
            bytes.swap(at + 1, at + 3);
        }
        _ => {
            let at = 9 + random.below(n + edges);
            bytes[at] = random.next() as u8;
        }
    }
}
