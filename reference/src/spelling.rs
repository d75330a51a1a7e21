//! How numbers and texts are spelled in what is generated.

/// A length in points that is read back as this many scaled points: five decimals are enough.
pub fn points(sp: i64) -> String {
    let size = sp.unsigned_abs();
    let (whole, part) = (size / 65_536, size % 65_536);
    let decimals = (part * 100_000 + 32_768) / 65_536;
    let sign = if sp < 0 { "-" } else { "" };
    if decimals == 0 {
        return format!("{sign}{whole}pt");
    }
    let decimals = format!("{decimals:05}");
    format!("{sign}{whole}.{}pt", decimals.trim_end_matches('0'))
}

/// Two capital hexadecimal digits for each byte.
pub fn hex(bytes: &[u8]) -> String {
    bytes.iter().map(|byte| format!("{byte:02X}")).collect()
}

/// Two small hexadecimal digits for each byte.
pub fn small_hex(bytes: &[u8]) -> String {
    bytes.iter().map(|byte| format!("{byte:02x}")).collect()
}

#[cfg(test)]
mod tests {
    use super::*;
    use crate::lengths::{length_at, G};

    #[test]
    fn points_are_read_back() {
        let mut rng = crate::random::Rng::new(8);
        let limits = [0, 1, 2, 63, 64, 65_535, 65_536, 65_537, G - 1, G];
        let any: Vec<i64> = (0..20_000).map(|_| rng.from_to(-G, G)).collect();
        for sp in limits.into_iter().chain(limits.map(|n| -n)).chain(any) {
            let text = points(sp);
            assert_eq!(length_at(text.as_bytes(), 0), Ok((sp, text.len())), "{text}");
        }
    }
}
