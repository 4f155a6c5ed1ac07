//! Files worked by hand, with ids and rooms, and the answers that the rules give them.

use super::numbers::{beside, BESIDE_TEXT, KNOWN};
use crate::files::draft::Triangle;
use crate::files::worked::{all as all_files, changed, numbered, EXAMPLE, SHORTEST, THREE};
use crate::footprint::stored::{HELD_BACK, TEST, TRAINING};
use crate::lists::worked::file_of;
use crate::wkt::{NO_SUCH_ID, ROOM_TOO_SHORT};
use crate::writer::Written;

pub struct Worked {
    pub file: Vec<u8>,
    pub id: u32,
    pub room: usize,
    pub number: u32,
    pub place: u32,
    /// Empty if it is refused.
    pub text: String,
}

impl Worked {
    pub fn answer(&self) -> Written {
        Written { number: self.number, place: self.place, length: self.text.len() }
    }
}

/// The triangle with which the rules show a text, and its text.
pub const SHOWN: Triangle = [0, 0, 400, 0, 0, -5];
pub const SHOWN_TEXT: &str = "GEOMETRYCOLLECTION (POLYGON ((0.00 0.00, 4.00 0.00, 0.00 -0.05, 0.00 0.00)))";

/// A recording of it alone.
pub fn shown() -> Vec<u8> {
    file_of(&[(7, TRAINING, &[SHOWN])])
}

fn answered(file: &[u8], id: u32, text: &str) -> Worked {
    Worked { file: file.to_vec(), id, room: text.len(), number: 0, place: 0, text: text.to_string() }
}

fn refused(number: u32, file: &[u8], id: u32, room: usize) -> Worked {
    Worked { file: file.to_vec(), id, room, number, place: 0, text: String::new() }
}

/// Longer than the texts that the refused ones would have.
const ROOM: usize = 300;

pub fn all() -> Vec<Worked> {
    [texts(), several(), numbers(), of_one_alone(), too_short(), not_there(), refused_files(), orders()]
        .into_iter()
        .flatten()
        .collect()
}

fn texts() -> Vec<Worked> {
    const MANY: &str = "GEOMETRYCOLLECTION (\
        POLYGON ((10000.00 10000.00, -10000.00 10000.00, 10000.00 -10000.00, 10000.00 10000.00)), \
        POLYGON ((0.00 0.00, 655.36 0.00, 0.00 655.36, 0.00 0.00)))";
    const ENDS: &str = "GEOMETRYCOLLECTION (\
        POLYGON ((-10000.00 -10000.00, 10000.00 9999.99, -9999.99 -9999.99, -10000.00 -10000.00)))";
    const SEVEN: &str = "GEOMETRYCOLLECTION (POLYGON ((0.00 0.00, 0.04 0.00, 0.00 0.04, 0.00 0.00)))";
    const NINE: &str = "GEOMETRYCOLLECTION (POLYGON ((0.01 0.01, -0.03 0.01, 0.01 -0.03, 0.01 0.01)))";
    const ZERO: &str = "GEOMETRYCOLLECTION (POLYGON ((0.00 0.00, 0.00 0.04, 0.04 0.00, 0.00 0.00)))";
    vec![
        answered(&shown(), 7, SHOWN_TEXT),
        answered(&EXAMPLE, 7, SEVEN),
        answered(&EXAMPLE, 9, NINE),
        answered(&changed(&EXAMPLE, 71, 1), 9, NINE),
        answered(&THREE, 0, ZERO),
        answered(&THREE, u32::MAX, MANY),
        answered(&THREE, 5, ENDS),
        answered(&numbered(64), 0, SEVEN),
        answered(&numbered(64), 31, SEVEN),
        answered(&numbered(64), 63, SEVEN),
    ]
}

/// Recordings whose ids are other recordings' numbers in the table, one of each set, either way round, and the
/// same triangle twice.
fn several() -> Vec<Worked> {
    let turned: Triangle = [0, 0, 0, -5, 400, 0];
    let far: Triangle = [-5, 400, 1_000, -1_000, 123_456, 99];
    let file =
        file_of(&[(2, HELD_BACK, &[SHOWN, far]), (0, TEST, &[turned]), (1, TRAINING, &[far, far, SHOWN])]);
    const BOTH: &str = "GEOMETRYCOLLECTION (\
        POLYGON ((0.00 0.00, 4.00 0.00, 0.00 -0.05, 0.00 0.00)), \
        POLYGON ((-0.05 4.00, 10.00 -10.00, 1234.56 0.99, -0.05 4.00)))";
    const TURNED: &str = "GEOMETRYCOLLECTION (POLYGON ((0.00 0.00, 0.00 -0.05, 4.00 0.00, 0.00 0.00)))";
    const TWICE: &str = "GEOMETRYCOLLECTION (\
        POLYGON ((-0.05 4.00, 10.00 -10.00, 1234.56 0.99, -0.05 4.00)), \
        POLYGON ((-0.05 4.00, 10.00 -10.00, 1234.56 0.99, -0.05 4.00)), \
        POLYGON ((0.00 0.00, 4.00 0.00, 0.00 -0.05, 0.00 0.00)))";
    vec![answered(&file, 2, BOTH), answered(&file, 0, TURNED), answered(&file, 1, TWICE)]
}

/// Each known number in each of the six places.
fn numbers() -> Vec<Worked> {
    let of = |(number, text): (i32, &str)| {
        let (mut triangles, mut polygons) = (Vec::new(), Vec::new());
        for place in 0..6 {
            triangles.push(beside(number, place));
            let mut texts = BESIDE_TEXT;
            texts[place] = text;
            let [x0, y0, x1, y1, x2, y2] = texts;
            polygons.push(format!("POLYGON (({x0} {y0}, {x1} {y1}, {x2} {y2}, {x0} {y0}))"));
        }
        let text = format!("GEOMETRYCOLLECTION ({})", polygons.join(", "));
        answered(&file_of(&[(7, TEST, &triangles)]), 7, &text)
    };
    KNOWN.into_iter().map(of).collect()
}

/// The shortest text that there is, and the longest of one triangle.
fn of_one_alone() -> Vec<Worked> {
    const SHORT: &str = "GEOMETRYCOLLECTION (POLYGON ((9.99 9.99, 0.00 5.00, 1.07 0.00, 9.99 9.99)))";
    const LONG: &str = "GEOMETRYCOLLECTION (\
        POLYGON ((-10000.00 -10000.00, -10000.00 10000.00, 10000.00 -10000.00, -10000.00 -10000.00)))";
    let long = [-1_000_000, -1_000_000, -1_000_000, 1_000_000, 1_000_000, -1_000_000];
    vec![
        answered(&file_of(&[(0, HELD_BACK, &[[999, 999, 0, 500, 107, 0]])]), 0, SHORT),
        answered(&file_of(&[(u32::MAX, TRAINING, &[long])]), u32::MAX, LONG),
    ]
}

fn too_short() -> Vec<Worked> {
    let mut all: Vec<Worked> =
        (0..SHOWN_TEXT.len()).map(|room| refused(ROOM_TOO_SHORT, &shown(), 7, room)).collect();
    for worked in texts().into_iter().chain(several()).chain(of_one_alone()) {
        all.push(refused(ROOM_TOO_SHORT, &worked.file, worked.id, worked.text.len() - 1));
    }
    all
}

/// Near the example's ids, which are 7 and 9, or otherwise in its bytes.
fn not_there() -> Vec<Worked> {
    const OTHERS: [u32; 18] = [
        0,
        1,
        2,
        6,
        8,
        10,
        24,
        48,
        84,
        3,
        5,
        263,
        65_543,
        1_543,
        0x0700_0000,
        0x8000_0007,
        1 << 31,
        u32::MAX,
    ];
    let mut all: Vec<Worked> = OTHERS.iter().map(|id| refused(NO_SUCH_ID, &EXAMPLE, *id, ROOM)).collect();
    all.extend([0, 12, 7, u32::MAX].map(|id| refused(NO_SUCH_ID, &SHORTEST, id, ROOM)));
    all.extend([1, 2, 96, 4_294_967_294].map(|id| refused(NO_SUCH_ID, &THREE, id, ROOM)));
    all.push(refused(NO_SUCH_ID, &numbered(64), 64, ROOM));
    all
}

/// With ids that stand in them.
fn refused_files() -> Vec<Worked> {
    let bad = all_files().into_iter().filter(|worked| worked.number != 0).enumerate();
    bad.map(|(k, bad)| Worked {
        id: [7, 9, 0, 5][k % 4],
        number: bad.number,
        place: bad.place,
        ..refused(0, &bad.file, 0, ROOM)
    })
    .collect()
}

/// Two or three refusals at once: the file's own, then 21, then 20.
fn orders() -> Vec<Worked> {
    let mut all = Vec::new();
    for room in [0, 1, 75] {
        all.push(refused(NO_SUCH_ID, &EXAMPLE, 8, room));
        all.push(refused(NO_SUCH_ID, &SHORTEST, 0, room));
        all.push(refused(NO_SUCH_ID, &THREE, 6, room));
    }
    for number in 11..=18 {
        let mut bad = all_files().into_iter().filter(|worked| worked.number == number);
        let bad = bad.next_back().expect("files are worked for every refusal");
        for (id, room) in [(7, 0), (77, ROOM), (77, 0), (77, 20)] {
            all.push(Worked { number, place: bad.place, ..refused(0, &bad.file, id, room) });
        }
    }
    all
}
