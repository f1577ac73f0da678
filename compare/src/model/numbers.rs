//! Seven-bit numbers: groups of seven bits, lowest first, the top bit set on all but the last.

/// The number at the front of `bytes` and how many bytes it takes; or refusal 1, 2 or 3.
pub fn read(bytes: &[u8]) -> Result<(u64, usize), u64> {
    let mut value = 0;
    for group in 0..5 {
        let Some(&byte) = bytes.get(group) else { return Err(1) };
        let goes_on = byte >= 128;
        let bits = u64::from(byte % 128);
        if group == 4 && (goes_on || bits > 15) {
            return Err(2);
        }
        value += bits * 128_u64.pow(group as u32);
        if !goes_on {
            return if group > 0 && bits == 0 { Err(3) } else { Ok((value, group + 1)) };
        }
    }
    unreachable!("the fifth group ends the number or is refused")
}

/// Adds the shortest form of `value` to `bytes`.
pub fn write(mut value: u64, bytes: &mut Vec<u8>) {
    while value >= 128 {
        bytes.push((value % 128) as u8 + 128);
        value /= 128;
    }
    bytes.push(value as u8);
}

#[cfg(test)]
mod tests {
    use super::*;

    #[test]
    fn worked_numbers() {
        assert_eq!(read(&[0xBE, 0x01]), Ok((190, 2)));
        assert_eq!(read(&[0xBE, 0x81, 0x00]), Err(3));
        assert_eq!(read(&[0xFF, 0xFF, 0xFF, 0xFF, 0x0F]), Ok((4_294_967_295, 5)));
        assert_eq!(read(&[0xFF, 0xFF, 0xFF, 0xFF, 0x10]), Err(2));
        assert_eq!(read(&[]), Err(1));
    }

    #[test]
    fn written_numbers_read_back() {
        for value in [0, 1, 127, 128, 16_383, 16_384, 2_097_151, 2_097_152, 268_435_455, 268_435_456, 4_294_967_295] {
            let mut bytes = Vec::new();
            write(value, &mut bytes);
            assert_eq!(read(&bytes), Ok((value, bytes.len())));
            assert_eq!(read(&bytes[..bytes.len() - 1]), Err(1));
        }
    }
}
