//! Files worked by hand, with the number and the place that the rules give them.

/// The shortest good file: no triangles, no recordings.
pub const SHORTEST: [u8; 12] = [0, 0, 0, 0, 0, 0, 0, 0, 12, 0, 0, 0];

/// Training recording 7 with V of case D, test recording 9 with U of case D.
#[rustfmt::skip]
pub const EXAMPLE: [u8; 84] = [
    0, 0, 0, 0, 0, 0, 0, 0, 4, 0, 0, 0, 0, 0, 0, 0, 0, 0, 0, 0, 4, 0, 0, 0,
    1, 0, 0, 0, 1, 0, 0, 0, 253, 255, 255, 255, 1, 0, 0, 0, 1, 0, 0, 0, 253, 255, 255, 255,
    7, 0, 0, 0, 0, 0, 0, 0, 1, 0, 0, 0,
    9, 0, 0, 0, 24, 0, 0, 0, 1, 0, 1, 0,
    48, 0, 0, 0, 2, 0, 0, 0, 84, 0, 0, 0,
];

/// One recording of each set, of one, two and one triangles; ids at both ends.
#[rustfmt::skip]
pub const THREE: [u8; 144] = [
    0, 0, 0, 0, 0, 0, 0, 0, 0, 0, 0, 0, 4, 0, 0, 0, 4, 0, 0, 0, 0, 0, 0, 0,
    64, 66, 15, 0, 64, 66, 15, 0, 192, 189, 240, 255, 64, 66, 15, 0, 64, 66, 15, 0, 192, 189, 240, 255,
    0, 0, 0, 0, 0, 0, 0, 0, 0, 0, 1, 0, 0, 0, 0, 0, 0, 0, 0, 0, 0, 0, 1, 0,
    192, 189, 240, 255, 192, 189, 240, 255, 64, 66, 15, 0, 63, 66, 15, 0, 193, 189, 240, 255, 193, 189, 240, 255,
    0, 0, 0, 0, 0, 0, 0, 0, 1, 0, 2, 0,
    255, 255, 255, 255, 24, 0, 0, 0, 2, 0, 0, 0,
    5, 0, 0, 0, 72, 0, 0, 0, 1, 0, 1, 0,
    96, 0, 0, 0, 3, 0, 0, 0, 144, 0, 0, 0,
];

pub struct Worked {
    pub file: Vec<u8>,
    pub number: u32,
    pub place: u32,
}

type Edit<'a> = (usize, &'a [u8]);

/// From a good file, with other bytes at some places.
fn spoiled(number: u32, place: u32, file: &[u8], edits: &[Edit]) -> Worked {
    let mut file = file.to_vec();
    for (at, bytes) in edits {
        file[*at..*at + bytes.len()].copy_from_slice(bytes);
    }
    Worked { file, number, place }
}

pub fn all() -> Vec<Worked> {
    [good(), at_the_trailer(), at_an_entry(), at_the_end(), at_a_triangle()].into_iter().flatten().collect()
}

fn good() -> Vec<Worked> {
    vec![
        spoiled(0, 0, &SHORTEST, &[]),
        spoiled(0, 0, &EXAMPLE, &[]),
        spoiled(0, 0, &THREE, &[]),
        spoiled(0, 0, &numbered(64), &[]),
        // A cross of 2^32, which is none of zero.
        spoiled(0, 0, &EXAMPLE, &[(8, &[0, 0, 1]), (20, &[0, 0, 1])]),
        // Tests of the second edition: one of two, of three and of five recordings, and two of two
        spoiled(0, 0, &EXAMPLE, &[(71, &[1])]),
        spoiled(0, 0, &THREE, &[(131, &[1])]),
        spoiled(0, 0, &numbered(5), &[(179, &[1])]),
        spoiled(0, 0, &EXAMPLE, &[(58, &[1, 1]), (71, &[1])]),
        spoiled(0, 0, &EXAMPLE, &[(58, &[1, 1])]),
    ]
}

/// This many recordings with a triangle each, of all sets by turns; good up to 64.
pub fn numbered(recordings: u8) -> Vec<u8> {
    numbered_of(recordings, 3)
}

/// The same of so many sets.
pub fn numbered_of(recordings: u8, sets: u8) -> Vec<u8> {
    let mut file = EXAMPLE[..24].repeat(usize::from(recordings));
    let table = file.len() as u32;
    for k in 0..recordings {
        file.extend([k, 0, 0, 0]);
        file.extend((24 * u32::from(k)).to_le_bytes());
        file.extend([1, 0, k % sets, 0]);
    }
    let length = file.len() as u32 + 12;
    file.extend([table, u32::from(recordings), length].map(u32::to_le_bytes).concat());
    file
}

/// 65 empty entries and nothing else wrong, so that the file is short.
pub fn too_many_recordings() -> Vec<u8> {
    let length = 12 * 65 + 12;
    let mut file = vec![0; length - 12];
    file.extend([0, 65, length as u32].map(u32::to_le_bytes).concat());
    file
}

fn at_the_trailer() -> Vec<Worked> {
    let extended: Vec<u8> = [&EXAMPLE[..], &[0]].concat();
    vec![
        spoiled(11, 0, &[], &[]),
        spoiled(11, 0, &SHORTEST[1..], &[]),
        spoiled(12, 0, &EXAMPLE, &[(80, &[83])]),
        spoiled(12, 0, &EXAMPLE, &[(82, &[1])]),
        spoiled(12, 0, &extended, &[]),
        spoiled(12, 0, &EXAMPLE, &[(80, &[85]), (76, &[3])]),
        spoiled(13, 0, &SHORTEST, &[(0, &[4])]),
        // 2^32 − 12 + 12 + 12
        spoiled(13, 0, &SHORTEST, &[(0, &[244, 255, 255, 255, 1])]),
        spoiled(13, 72, &EXAMPLE, &[(72, &[47])]),
        spoiled(13, 72, &EXAMPLE, &[(72, &[36])]),
        spoiled(13, 72, &EXAMPLE, &[(76, &[1])]),
        spoiled(13, 72, &EXAMPLE, &[(76, &[3])]),
        // 2 + 2^8, 2 + 2^16, and 2 + 2^30, of which twelve times is twelve times 2 to 32 bits
        spoiled(13, 72, &EXAMPLE, &[(77, &[1])]),
        spoiled(13, 72, &EXAMPLE, &[(78, &[1])]),
        spoiled(13, 72, &EXAMPLE, &[(79, &[64])]),
        spoiled(13, 2340, &numbered(65), &[]),
    ]
}

fn at_an_entry() -> Vec<Worked> {
    vec![
        spoiled(14, 48, &EXAMPLE, &[(56, &[0])]),
        spoiled(14, 60, &EXAMPLE, &[(68, &[0])]),
        spoiled(14, 48, &EXAMPLE, &[(58, &[3])]),
        spoiled(14, 60, &EXAMPLE, &[(70, &[255])]),
        spoiled(14, 48, &EXAMPLE, &[(59, &[1])]),
        spoiled(14, 60, &EXAMPLE, &[(71, &[128])]),
        // 1 of what is training, held back, of no set; and more than 1 of a test
        spoiled(14, 48, &EXAMPLE, &[(59, &[1]), (71, &[1])]),
        spoiled(14, 60, &EXAMPLE, &[(70, &[0, 1])]),
        spoiled(14, 60, &EXAMPLE, &[(70, &[2, 1])]),
        spoiled(14, 60, &EXAMPLE, &[(70, &[3, 1])]),
        spoiled(14, 96, &THREE, &[(107, &[1])]),
        spoiled(14, 108, &THREE, &[(119, &[1])]),
        spoiled(14, 60, &EXAMPLE, &[(71, &[2])]),
        spoiled(14, 60, &EXAMPLE, &[(71, &[3])]),
        spoiled(14, 60, &EXAMPLE, &[(71, &[129])]),
        spoiled(14, 60, &EXAMPLE, &[(71, &[255])]),
        spoiled(14, 48, &EXAMPLE, &[(59, &[2])]),
        spoiled(14, 168, &numbered(5), &[(178, &[0, 1])]),
        spoiled(14, 48, &EXAMPLE, &[(52, &[24])]),
        spoiled(14, 48, &EXAMPLE, &[(52, &[232, 255, 255, 255])]),
        spoiled(14, 60, &EXAMPLE, &[(64, &[0])]),
        spoiled(14, 60, &EXAMPLE, &[(64, &[48])]),
        spoiled(14, 60, &EXAMPLE, &[(56, &[2])]),
        spoiled(16, 60, &EXAMPLE, &[(60, &[7])]),
        spoiled(16, 108, &THREE, &[(108, &[0, 0, 0, 0])]),
        spoiled(16, 120, &THREE, &[(120, &[0])]),
        spoiled(16, 120, &THREE, &[(120, &[255, 255, 255, 255])]),
        // 14 and 16 of one entry; of an entry and the next one, both ways
        spoiled(14, 60, &EXAMPLE, &[(60, &[7]), (70, &[3])]),
        spoiled(14, 108, &THREE, &[(119, &[1]), (120, &[0])]),
        spoiled(16, 108, &THREE, &[(108, &[0, 0, 0, 0]), (130, &[9])]),
        spoiled(14, 60, &EXAMPLE, &[(60, &[7]), (71, &[2])]),
        spoiled(16, 60, &EXAMPLE, &[(60, &[7]), (71, &[1])]),
        spoiled(16, 108, &THREE, &[(108, &[0, 0, 0, 0]), (131, &[2])]),
        spoiled(14, 96, &THREE, &[(107, &[1]), (108, &[0, 0, 0, 0])]),
    ]
}

fn at_the_end() -> Vec<Worked> {
    let triangle_before: Vec<u8> = [&EXAMPLE[..24], &SHORTEST[..]].concat();
    let triangle_more: Vec<u8> = [&EXAMPLE[..48], &EXAMPLE[..24], &EXAMPLE[48..]].concat();
    let four_more: Vec<u8> = [&EXAMPLE[..48], &[0; 4], &EXAMPLE[48..]].concat();
    vec![
        spoiled(15, 24, &triangle_before, &[(24, &[24]), (32, &[36])]),
        spoiled(15, 72, &triangle_more, &[(96, &[72]), (104, &[108])]),
        spoiled(15, 52, &four_more, &[(76, &[52]), (84, &[88])]),
        spoiled(15, 48, &EXAMPLE, &[(68, &[2])]),
        spoiled(15, 48, &EXAMPLE, &[(68, &[255, 255])]),
        // 1 + 8192 triangles end at 48 to 16 bits
        spoiled(15, 48, &EXAMPLE, &[(68, &[1, 32])]),
        // 65,535 triangles end at 1,572,840, and from there 65,535 more
        spoiled(15, 48, &EXAMPLE, &[(56, &[255, 255]), (64, &[232, 255, 23]), (68, &[255, 255])]),
        spoiled(16, 60, &EXAMPLE, &[(60, &[7]), (68, &[2])]),
        spoiled(15, 48, &EXAMPLE, &[(68, &[2]), (71, &[1])]),
        spoiled(15, 48, &EXAMPLE, &[(68, &[2]), (3, &[127])]),
    ]
}

fn at_a_triangle() -> Vec<Worked> {
    // 1,000,001 and its negative
    const OVER: &[u8] = &[65, 66, 15, 0];
    const UNDER: &[u8] = &[191, 189, 240, 255];
    let mut all: Vec<Worked> =
        (0..6).map(|index| spoiled(17, 24, &EXAMPLE, &[(24 + 4 * index, OVER)])).collect();
    all.extend((0..6).map(|index| spoiled(17, 0, &EXAMPLE, &[(4 * index, UNDER)])));
    all.extend([
        spoiled(17, 72, &THREE, &[(92, &[255, 255, 255, 127])]),
        spoiled(17, 48, &THREE, &[(48, &[0, 0, 0, 128])]),
        spoiled(18, 0, &EXAMPLE, &[(20, &[0])]),
        spoiled(18, 24, &EXAMPLE, &[(44, &[1, 0, 0, 0])]),
        spoiled(18, 24, &EXAMPLE, &[(44, &[1, 0, 0, 0]), (71, &[1])]),
        // (0,0), (4,0), (8,0), and then with 1,000,001 in the place of 8
        spoiled(18, 0, &EXAMPLE, &[(16, &[8]), (20, &[0])]),
        spoiled(17, 0, &EXAMPLE, &[(16, OVER), (20, &[0])]),
        spoiled(18, 0, &EXAMPLE, &[(20, &[0]), (24, OVER)]),
        spoiled(17, 0, &EXAMPLE, &[(20, OVER), (44, &[1, 0, 0, 0])]),
        // From corner to corner of the range, over its middle
        spoiled(18, 72, &THREE, &[(84, &[64]), (88, &[0; 8])]),
    ]);
    all
}

/// Every shorter beginning, then every single byte with some other values.
pub fn in_turn(file: &[u8]) -> Vec<Vec<u8>> {
    let mut all: Vec<Vec<u8>> = (0..file.len()).map(|length| file[..length].to_vec()).collect();
    for place in 0..file.len() {
        let known = file[place];
        let mut others =
            vec![known ^ 1, known ^ 128, known.wrapping_add(24), known.wrapping_sub(1), 0, 1, 3, 127, 255];
        others.sort_unstable();
        others.dedup();
        others.retain(|byte| *byte != known);
        all.extend(others.into_iter().map(|byte| changed(file, place, byte)));
    }
    all
}

pub fn changed(file: &[u8], place: usize, byte: u8) -> Vec<u8> {
    let mut file = file.to_vec();
    file[place] = byte;
    file
}
