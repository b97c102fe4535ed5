//! Request h of document 02, in plain form: the header step. "Given a packet's first 20 bytes, it checks version 4, header
//! length 5 words and the header checksum (RFC 791), looks up the destination, lowers the time to live by one and mends
//! the checksum (RFC 1624)."

use crate::gen::Rng;
use crate::plain::{lookup, number, refused, Lent};

/// The bytes of a header of five words.
pub const HEADER: usize = 20;
/// The bytes of the time to live, and of the checksum.
const LIVES: usize = 8;
const CHECKSUM: usize = 10;

/// The ten halves of a header.
fn halves(header: &[u8]) -> impl Iterator<Item = u64> + '_ {
    header[..HEADER].chunks(2).map(|b| u16::from_be_bytes([b[0], b[1]]) as u64)
}

/// RFC 791: the checksum "is the 16 bit one's complement of the one's complement sum of all 16 bit words in the header",
/// itself counted as zero. A ones' complement sum of 16 bits is a sum modulo 65,535, and is 0 only if all are.
pub fn fresh_checksum(header: &[u8]) -> u16 {
    let sum = halves(header).sum::<u64>() - checksum(header) as u64;
    let folded = if sum == 0 { 0 } else { (sum - 1) % 65_535 + 1 };
    !(folded as u16)
}

/// "equal in ones' complement value": 0000 and FFFF are both zero.
pub fn same_value(a: u16, b: u16) -> bool {
    a % 65_535 == b % 65_535
}

fn checksum(header: &[u8]) -> u16 {
    u16::from_be_bytes([header[CHECKSUM], header[CHECKSUM + 1]])
}

pub fn checksum_right(header: &[u8]) -> bool {
    same_value(checksum(header), fresh_checksum(header))
}

fn set_checksum(header: &mut [u8], sum: u16) {
    header[CHECKSUM..CHECKSUM + 2].copy_from_slice(&sum.to_be_bytes());
}

/// RFC 1624, equation 3: HC' = ~(~HC + ~m + m'), when a half of the header changes from m to m'.
pub fn mended(checksum: u16, was: u16, is: u16) -> u16 {
    let sum = !checksum as u32 + !was as u32 + is as u32;
    let once = (sum & 0xFFFF) + (sum >> 16);
    !((once & 0xFFFF) + (once >> 16)) as u16
}

/// "Refusals, in order, before lookup's: 19, fewer than 20 bytes; 20, version or header length; 21, checksum; 22, time to
/// live 0 or 1."
fn fault(packet: &[u8]) -> Option<u64> {
    if packet.len() < HEADER {
        return Some(refused(19));
    }
    let (version, words) = (packet[0] >> 4, packet[0] & 0xF);
    if version != 4 || words != 5 {
        return Some(refused(20));
    }
    if !checksum_right(packet) {
        return Some(refused(21));
    }
    (packet[LIVES] <= 1).then_some(refused(22))
}

/// The destination address of a header.
pub fn destination(packet: &[u8]) -> u32 {
    u32::from_be_bytes([packet[16], packet[17], packet[18], packet[19]])
}

/// The step over any lookup, whose answers are packed as a table's. "No route leaves the header as it was."
pub fn step_by(look: impl FnOnce(u32) -> u64, packet: &mut [u8]) -> u64 {
    if let Some(answer) = fault(packet) {
        return answer;
    }
    let answer = look(destination(packet));
    let hop = answer >> 16;
    if number(answer) == 0 && hop != 0 {
        packet[LIVES] -= 1;
        let fresh = fresh_checksum(packet);
        set_checksum(packet, fresh);
    }
    answer
}

/// The step in a table.
pub fn step(p1: u32, p2: u32, count: u32, lent: &Lent, packet: &mut [u8]) -> u64 {
    step_by(|addr| lookup(p1, p2, count, lent, addr), packet)
}

// ---------------------------------------------------------------------------------------------------- packets

/// A packet with a right header to this destination and bytes after it: all fields at random, the time to live often at
/// its ends, the checksum often one at which a sum carries or is zero.
pub fn packet(rng: &mut Rng, destination: u32) -> Vec<u8> {
    let mut packet: Vec<u8> = (0..HEADER + rng.below(8) * rng.below(2)).map(|_| rng.word() as u8).collect();
    packet[0] = 0x45;
    packet[16..HEADER].copy_from_slice(&destination.to_be_bytes());
    if rng.one_in(3) {
        packet[LIVES] = *rng.pick(&[2, 2, 3, 64, 128, 255]);
    } else if packet[LIVES] < 2 {
        packet[LIVES] = 2;
    }
    if rng.one_in(2) {
        let wanted = *rng.pick(&[0, 1, 0x00FF, 0x0100, 0x0101, 0xFEFE, 0xFEFF, 0xFF00, 0xFF01, 0xFFFE]);
        with_checksum(&mut packet, wanted);
    }
    let right = fresh_checksum(&packet);
    set_checksum(&mut packet, right);
    // The other zero.
    if right == 0 && rng.one_in(2) {
        set_checksum(&mut packet, 0xFFFF);
    }
    packet
}

/// Sets the identification so that this is the right checksum. FFFF is none that is worked out.
fn with_checksum(packet: &mut [u8], wanted: u16) {
    packet[4..6].fill(0);
    let sum = !fresh_checksum(packet) as u32;
    let ident = (!wanted as u32 + 65_535 - sum) % 65_535;
    packet[4..6].copy_from_slice(&(ident as u16).to_be_bytes());
}

/// Harm to a packet that was right, of each kind that is refused, one or two at once: the order among them matters. Now
/// and then it is still right.
pub fn damage(rng: &mut Rng, packet: &mut Vec<u8>) {
    for _ in 0..rng.range(1, 2) {
        match rng.below(8) {
            0 => packet.truncate(*rng.pick(&[0, 1, 8, 12, 19, 19, HEADER])),
            1 if !packet.is_empty() => packet[0] = *rng.pick(&[0x46, 0x44, 0x65, 0x55, 0x35, 0x54, 0x05, 0x40, 0]),
            // A right checksum over a wrong first byte.
            2 if packet.len() >= HEADER => {
                packet[0] = *rng.pick(&[0x46, 0x65, 0x54]);
                let right = fresh_checksum(packet);
                set_checksum(packet, right);
            }
            3 | 4 if packet.len() >= HEADER => {
                packet[LIVES] = *rng.pick(&[0, 1, 1, 2]);
                let right = fresh_checksum(packet);
                set_checksum(packet, right);
            }
            5 if packet.len() >= HEADER => {
                let sum = checksum(packet);
                set_checksum(packet, *rng.pick(&[0, 0xFFFF, !sum, sum.swap_bytes(), sum ^ 1, sum.wrapping_add(1)]));
            }
            6 if packet.len() > LIVES => packet[LIVES] = *rng.pick(&[0, 1]),
            _ if !packet.is_empty() => {
                let k = rng.below(packet.len().min(HEADER));
                packet[k] ^= 1 << rng.below(8);
            }
            _ => {}
        }
    }
}
