//! CRC-32 (ISO-HDLC): the remainder of a division of polynomials over bits, a byte at a time by a table of remainders.

/// The powers 0 to 31 of the divisor, the lowest in the highest bit; its power 32 is what is carried out.
const DIVISOR: u32 = 0xEDB8_8320;

/// The remainder of a byte that is carried out bit by bit, for each byte.
const REMAINDERS: [u32; 256] = {
    let mut remainders = [0; 256];
    let mut byte = 0;
    while byte < 256 {
        let (mut remainder, mut bit) = (byte as u32, 0);
        while bit < 8 {
            remainder = (remainder >> 1) ^ if remainder & 1 == 1 { DIVISOR } else { 0 };
            bit += 1;
        }
        remainders[byte] = remainder;
        byte += 1;
    }
    remainders
};

/// The sum of bytes behind those whose sum is this; 0 is that of none.
pub fn sum(sum: u32, bytes: &[u8]) -> u32 {
    !bytes
        .iter()
        .fold(!sum, |register, byte| (register >> 8) ^ REMAINDERS[usize::from(register as u8 ^ byte)])
}

#[cfg(test)]
mod tests {
    use super::sum;

    /// From the catalogue of parametrised CRC algorithms, and from the PNG specification (the chunk IEND, which is empty).
    #[test]
    fn published_sums() {
        assert_eq!(sum(0, b""), 0);
        assert_eq!(sum(0, b"123456789"), 0xCBF4_3926);
        assert_eq!(sum(0, b"IEND"), 0xAE42_6082);
    }
}
