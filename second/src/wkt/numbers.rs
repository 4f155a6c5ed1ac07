//! Metres with two decimals, of a whole number of centimetres that a good file can have.

/// The two digits of every number below a hundred.
const PAIRS: [[u8; 2]; 100] = pairs();

const fn pairs() -> [[u8; 2]; 100] {
    let mut all = [[b'0'; 2]; 100];
    let mut k = 0;
    while k < 100 {
        all[k] = [b'0' + k as u8 / 10, b'0' + k as u8 % 10];
        k += 1;
    }
    all
}

/// At least a digit, the point and two digits.
#[inline]
pub fn width_of(centimetres: i32) -> usize {
    let size = centimetres.unsigned_abs();
    let more = [centimetres < 0, size >= 1_000, size >= 10_000, size >= 100_000, size >= 1_000_000];
    4 + more.map(usize::from).iter().sum::<usize>()
}

/// What is behind it comes back.
#[inline]
pub fn put_number(text: &mut [u8], centimetres: i32) -> &mut [u8] {
    let size = centimetres.unsigned_abs() as usize;
    let (metres, digits) = (size / 100, &PAIRS[size % 100]);
    let mut rest = text;
    if centimetres < 0 {
        rest = put(rest, b"-");
    }
    rest = match metres {
        0..=9 => put(rest, &[PAIRS[metres][1]]),
        10..=99 => put(rest, &PAIRS[metres]),
        100..=999 => put(put(rest, &[PAIRS[metres / 100][1]]), &PAIRS[metres % 100]),
        1_000..=9_999 => put(put(rest, &PAIRS[metres / 100]), &PAIRS[metres % 100]),
        // No number of a good file has more.
        _ => put(rest, b"10000"),
    };
    put(put(rest, b"."), digits)
}

/// The same for bytes as they are.
#[inline]
pub fn put<'a, const N: usize>(text: &'a mut [u8], bytes: &[u8; N]) -> &'a mut [u8] {
    let (front, rest) = text.split_at_mut(N);
    front.copy_from_slice(bytes);
    rest
}
