//! CRC-32 of IEEE 802.3 as the remainder of a division of polynomials over two elements, digit by digit on paper's terms: the
//! message as one long row of bits, 32 zeros after it, divided by the generator. There is no register that runs along and
//! no table, so a slip in either cannot be here too.

/// x^32 + x^26 + x^23 + x^22 + x^16 + x^12 + x^11 + x^10 + x^8 + x^7 + x^5 + x^4 + x^2 + x + 1
const POWERS: [u32; 15] = [32, 26, 23, 22, 16, 12, 11, 10, 8, 7, 5, 4, 2, 1, 0];

/// The register after `message`, from `register` on, with no complement. In the reflected form that everyone uses, bit 0
/// of a byte or a register is the highest power; what the register held stands over the first 32 places of the dividend.
pub fn more(register: u32, message: &[u8]) -> u32 {
    let generator = POWERS.iter().fold(0u64, |sum, power| sum | 1 << power);
    let lowest_first = |byte: &u8| (0..8).map(|k| byte >> k & 1 == 1).collect::<Vec<bool>>();
    let mut dividend: Vec<bool> = message.iter().flat_map(lowest_first).collect();
    dividend.extend([false; 32]);
    for (k, place) in dividend.iter_mut().take(32).enumerate() {
        *place ^= register >> k & 1 == 1;
    }
    let mut rest = 0u64;
    for bit in dividend {
        rest = rest << 1 | bit as u64;
        if rest >> 32 == 1 {
            rest ^= generator;
        }
    }
    (rest as u32).reverse_bits()
}

pub fn crc32(message: &[u8]) -> u32 {
    !more(!0, message)
}
