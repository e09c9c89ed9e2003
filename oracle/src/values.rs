//! Values around every boundary of the readings.

/// How many bytes a type of a number needs; a text needs none in particular.
pub fn width_of(tpe: u8) -> Option<usize> {
    match tpe {
        0 | 1 => Some(1),
        2 | 3 => Some(2),
        4 | 5 | 8 => Some(4),
        6 | 7 | 9 => Some(8),
        _ => None,
    }
}

/// The ends of all whole-number types, their neighbours, and some between.
pub fn whole_numbers() -> Vec<i128> {
    let mut numbers = vec![0, 1, -1, 2, -2, 10, 100, -100, 1_000_000, 0x0123_4567_89AB_CDEF];
    for power in [7, 8, 15, 16, 23, 24, 31, 32, 33, 53, 62, 63, 64] {
        for end in [1_i128 << power, -(1_i128 << power)] {
            numbers.extend([end - 2, end - 1, end, end + 1, end + 2]);
        }
    }
    numbers
}

/// Whether a whole number is one of a type's.
pub fn is_of(tpe: u8, number: i128) -> bool {
    let Some(width) = width_of(tpe) else {
        return false;
    };
    let bits = 8 * width as u32;
    match tpe {
        0 | 2 | 4 | 6 => -(1_i128 << (bits - 1)) <= number && number < 1_i128 << (bits - 1),
        1 | 3 | 5 | 7 => 0 <= number && number < 1_i128 << bits,
        _ => false,
    }
}

/// Doubles at every edge of the conversion to whole numbers.
pub fn doubles() -> Vec<u64> {
    let mut out = vec![
        0x7FF0_0000_0000_0000, // infinity
        0x7FF0_0000_0000_0001, // not a number, with the least fraction
        0x7FF8_0000_0000_0000, // not a number, as it is made
        0x7FFF_FFFF_FFFF_FFFF, // not a number, with all bits
        0x0000_0000_0000_0001, // the least subnormal
        0x000F_FFFF_FFFF_FFFF, // the largest subnormal
        0x0010_0000_0000_0000, // the least normal
        0x7FEF_FFFF_FFFF_FFFF, // the largest
        0x0000_0000_0000_0000,
    ];
    let ends = [
        0.1, 0.5, 1.0, 1.5, 2.0, 2.5, 12.99, 99.999, 127.5, 128.0, 255.5, 256.0, 32767.5, 65535.5,
        2147483646.5, 2147483647.0, 2147483647.5, 2147483648.0, 2147483648.5, 4294967295.0,
        4294967296.0, 4503599627370495.5, 9007199254740992.0, 4611686018427387904.0,
        9223372036854775808.0, 18446744073709551616.0, 1e19, 1e100, 1e300,
    ];
    for end in ends {
        let bits = f64::to_bits(end);
        out.extend([bits - 1, bits, bits + 1]);
    }
    let negative: Vec<u64> = out.iter().map(|bits| bits | 1 << 63).collect();
    out.extend(negative);
    out
}

/// Floats of 32 bits at the same edges.
pub fn floats() -> Vec<u32> {
    let mut out = vec![
        0x7F80_0000, 0x7F80_0001, 0x7FC0_0000, 0x7FFF_FFFF, 0x0000_0001, 0x007F_FFFF, 0x0080_0000, 0x7F7F_FFFF, 0,
    ];
    let ends = [
        0.1, 0.5, 1.0, 1.5, 2.5, 12.99, 127.5, 255.5, 65535.5, 8388607.5, 16777216.0, 2147483520.0,
        2147483648.0, 4294967296.0, 4611686018427387904.0, 9223372036854775808.0,
        18446744073709551616.0, 1e30_f32,
    ];
    for end in ends {
        let bits = f32::to_bits(end);
        out.extend([bits - 1, bits, bits + 1]);
    }
    let negative: Vec<u32> = out.iter().map(|bits| bits | 1 << 31).collect();
    out.extend(negative);
    out
}

/// Texts of numbers, good and bad.
pub fn texts() -> Vec<Vec<u8>> {
    let words = [
        "", "0", "1", "9", "-0", "+0", "+5", "-5", "00", "007", "-007", "+007", "5.", "-5.", "5.0", "-12.99",
        "12.99", "12.x", "12.-", "12. ", "12.é", ".5", "-.5", "+.5", ".", "-", "+", "-.", "--5", "+-5", "-+5",
        "++5", "1.2.3", "1..2", "..", "...", ".1.", "1.2.", "x", "5x", "x5", "5-", "5+", " 5", "5 ", "\t5", "5\n",
        "5\0", "\05", "1e3", "1E3", "0x10", "1_000", "1,5", "1,000", "NaN", "inf", "-inf", "١", "５", "½", "−5",
        "5.١.", "é", "é.5", "5é", "5.é.é", "127", "128", "-128", "-129", "255", "256", "32767", "32768", "-32768",
        "65535", "65536", "2147483646", "2147483647", "2147483648", "2147483647.9", "2147483648.0", "-2147483647",
        "-2147483648", "-2147483649", "-2147483648.9", "+2147483647", "+2147483648", "4294967295", "4294967296",
        "9223372036854775806", "9223372036854775807", "9223372036854775808", "9223372036854775807.9",
        "-9223372036854775807", "-9223372036854775808", "-9223372036854775809", "-9223372036854775808.999",
        "+9223372036854775807", "+9223372036854775808", "18446744073709551615", "18446744073709551616",
        "0000000000000000000000009223372036854775807", "-0000000000000000000000009223372036854775808",
        "0000000000000000000000009223372036854775808", "00000000002147483647", "00000000002147483648",
        "99999999999999999999999999999999", "-99999999999999999999999999999999", "0.0000000000000000001",
        "10000000000.5", "-10000000000.5", "1.9999999999999999999999999999999999999999999999",
    ];
    let mut out: Vec<Vec<u8>> = words.iter().map(|word| word.as_bytes().to_vec()).collect();
    out.push([b"-".as_slice(), &[b'0'; 200], b"42"].concat());
    out.push([b"7.".as_slice(), &[b'9'; 200]].concat());
    out.push(vec![b'9'; 200]);
    out
}

/// Sequences of UTF-8, good and bad, by the table and the limits of RFC 3629.
pub fn sequences() -> Vec<Vec<u8>> {
    let good: [&[u8]; 13] = [
        b"\x7F", b"\xC2\x80", b"\xDF\xBF", b"\xE0\xA0\x80", b"\xE0\xBF\xBF", b"\xE1\x80\x80", b"\xEC\xBF\xBF",
        b"\xED\x9F\xBF", b"\xEE\x80\x80", b"\xEF\xBF\xBF", b"\xF0\x90\x80\x80", b"\xF1\x80\x80\x80", b"\xF4\x8F\xBF\xBF",
    ];
    let bad: [&[u8]; 32] = [
        b"\x80", b"\xBF", b"\xC0\x80", b"\xC1\xBF", b"\xC2", b"\xC2\x7F", b"\xC2\xC0", b"\xDF", b"\xE0\x9F\xBF",
        b"\xE0\x80\x80", b"\xE0\xA0", b"\xE1\x80", b"\xE1\x80\x7F", b"\xE1\xC0\x80", b"\xED\xA0\x80", b"\xED\xBF\xBF",
        b"\xEF\xBF", b"\xF0\x8F\xBF\xBF", b"\xF0\x80\x80\x80", b"\xF0\x90\x80", b"\xF1\x80\x80\xC0", b"\xF1\x80\x80",
        b"\xF4\x90\x80\x80", b"\xF5\x80\x80\x80", b"\xF7\xBF\xBF\xBF", b"\xF8\x88\x80\x80\x80", b"\xFC\x84\x80\x80\x80\x80",
        b"\xFE", b"\xFF", b"\xFE\xFE\xFF\xFF", b"\xC3\x28", b"\xF0\x9F\x98",
    ];
    good.iter().chain(&bad).map(|sequence| sequence.to_vec()).collect()
}

/// A time's record, from its nine numbers and the sign byte.
pub fn record(numbers: [u64; 9], sign: u8, spare: u8) -> Vec<u8> {
    let mut out = Vec::new();
    for number in &numbers[..6] {
        out.extend_from_slice(&(*number as u32).to_le_bytes());
    }
    out.extend_from_slice(&numbers[6].to_le_bytes());
    out.extend_from_slice(&[sign, spare, spare, spare]);
    out.extend_from_slice(&(numbers[7] as u32).to_le_bytes());
    out.extend_from_slice(&(numbers[8] as u32).to_le_bytes());
    out.extend_from_slice(&[spare; 4]);
    out
}
