//! What one list has in it and what its file could have made of it, so that a comparison can say
//! what it has covered.

pub mod boxes;
pub mod editions;
pub mod held_back;

use super::{of_set, trainings};
use crate::decision::{decide, decision_of, is_far, APART, OVERLAPPING, TOUCHING};
use crate::exact::{common_to, contact_of, Common, Contact};
use crate::footprint::stored::{triangle, Line, SECOND_EDITION, TEST, TRIANGLE};
use crate::footprint::{lines_of, Refused};
use crate::leaks::{counts_of, Leak, Rule, Whole};
use crate::triangles::{intersect, ROOM};
use boxes::{twos_of, Two};
use held_back::HeldBack;

/// Of a file with more triangles nothing is said about pairs of them.
const MOST_TRIANGLES: usize = 60;

pub struct Coverage<'a> {
    whole: &'a Result<Whole, Refused>,
    /// The table of a good file.
    pub lines: Vec<Line>,
    pub twos: Vec<Two>,
    pub pairs: Pairs,
}

/// What there is among the pairs of recordings and of their triangles.
#[derive(Default)]
pub struct Pairs {
    /// Two recordings with triangle pairs of the one kind only.
    pub overlapping_alone: bool,
    pub touching_alone: bool,
    /// Two recordings with both, by which of them comes first.
    pub overlapping_first: bool,
    pub touching_first: bool,
    /// Two recordings that only touch, in more than one triangle pair.
    pub touching_often: bool,
    /// Two recordings that leak, and overlap by rounding only.
    pub overlapping_by_rounding: bool,
    /// Another N or another K with U and V exchanged.
    pub another_n: bool,
    pub another_k: bool,
    /// The only triangle pair with a ring is that of the first or of the last triangles of two
    /// recordings with several each.
    pub first_overlaps: bool,
    pub last_overlaps: bool,
    pub first_touches: bool,
    pub last_touches: bool,
    /// What touching triangles truly share.
    pub whole_edge: bool,
    pub part_of_an_edge: bool,
    pub point: bool,
    /// Triangles that truly touch, but by the rules are apart.
    pub missed: bool,
    /// Triangles that are apart by their boxes alone: the triangle rules find a ring, with an area or
    /// without.
    pub else_overlapping: bool,
    pub else_touching: bool,
    /// Boxes that share a point, behind an overlapping triangle pair of the same recordings.
    pub tested_behind: bool,
    pub held_back: HeldBack,
}

impl<'a> Coverage<'a> {
    pub fn of(file: &[u8], whole: &'a Result<Whole, Refused>) -> Self {
        let lines = lines_of(file).unwrap_or_default();
        let mut pairs = Pairs::default();
        if lines.iter().map(|line| usize::from(line.count)).sum::<usize>() <= MOST_TRIANGLES {
            pairs.look_at(file, &lines);
        }
        let twos = twos_of(file, &lines);
        Coverage { whole, lines, twos, pairs }
    }

    /// 0 if the file is accepted, whatever the room.
    pub fn number(&self) -> u32 {
        self.whole.as_ref().map_or_else(|refused| refused.reason.number(), |_| 0)
    }

    pub fn accepted(&self) -> bool {
        self.whole.is_ok()
    }

    pub fn leaks(&self) -> &[Leak] {
        self.whole.as_ref().map_or(&[], |whole| &whole.leaks)
    }

    pub fn touching(&self) -> u32 {
        self.whole.as_ref().map_or(0, |whole| whole.touching)
    }

    pub fn tested(&self) -> usize {
        self.whole.as_ref().map_or(0, |whole| whole.tested as usize)
    }

    /// The last line's number.
    pub fn held_back(&self) -> u32 {
        self.whole.as_ref().map_or(0, |whole| whole.formerly_held_back)
    }

    /// Whether a test of a good file is.
    pub fn of_the_second_edition(&self) -> bool {
        self.lines.iter().any(|line| line.last == SECOND_EDITION)
    }

    pub fn triangle_pairs(&self) -> usize {
        self.twos.iter().map(Two::pairs).sum()
    }

    /// Whether a test and a training recording are so.
    pub fn any(&self, are: impl Fn(&Two) -> bool) -> bool {
        self.twos.iter().any(are)
    }

    /// The whole list; nothing of a refused file.
    pub fn text(&self) -> &str {
        self.whole.as_ref().map_or("", |whole| &whole.text)
    }

    pub fn length(&self) -> usize {
        self.text().len()
    }

    /// Those that are stored with the set.
    pub fn recordings_of(&self, set: u8) -> usize {
        of_set(&self.lines, set).count()
    }

    /// Those that the list looks at beside the tests.
    pub fn trainings(&self) -> usize {
        trainings(&self.lines).count()
    }

    /// Which of the table's recordings has the id.
    pub fn place_of(&self, id: u32) -> usize {
        self.lines.iter().position(|line| line.id == id).unwrap_or(usize::MAX)
    }
}

impl Pairs {
    fn look_at(&mut self, file: &[u8], lines: &[Line]) {
        for test in of_set(lines, TEST) {
            for training in trainings(lines) {
                self.look_at_recordings(test.part(file), training.part(file), Rule::of(test, file));
            }
        }
        self.held_back = HeldBack::among(file, lines);
    }

    fn look_at_recordings(&mut self, test: &[u8], training: &[u8], rule: Rule) {
        let mut rings = Vec::new();
        let mut by_rounding = 0;
        let mut overlapped = false;
        for (i, u) in test.chunks_exact(TRIANGLE).enumerate() {
            for (j, v) in training.chunks_exact(TRIANGLE).enumerate() {
                let Looked { kind, truly_overlap, far } = self.look_at_triangles(triangle(u), triangle(v));
                by_rounding += u32::from(kind == OVERLAPPING && !truly_overlap);
                self.tested_behind |= overlapped && !far;
                overlapped |= kind == OVERLAPPING;
                if kind != APART {
                    rings.push(([i, j], kind));
                }
            }
        }
        let counts = counts_of(test, training);
        self.overlapping_alone |= counts.overlap() && counts.touching == 0;
        self.touching_alone |= counts.only_touch();
        if counts.overlap() && counts.touching > 0 {
            self.overlapping_first |= rings[0].1 == OVERLAPPING;
            self.touching_first |= rings[0].1 == TOUCHING;
        }
        self.touching_often |= counts.only_touch() && counts.touching > 1;
        self.overlapping_by_rounding |= counts.leak(rule) && counts.overlapping == by_rounding;
        let exchanged = counts_of(training, test);
        self.another_n |= exchanged.overlapping != counts.overlapping;
        self.another_k |= exchanged.only_touch() != counts.only_touch();
        let last = [test.len() / TRIANGLE - 1, training.len() / TRIANGLE - 1];
        if last[0] > 0 && last[1] > 0 {
            self.first_overlaps |= rings == [([0, 0], OVERLAPPING)];
            self.last_overlaps |= rings == [(last, OVERLAPPING)];
            self.first_touches |= rings == [([0, 0], TOUCHING)];
            self.last_touches |= rings == [(last, TOUCHING)];
        }
    }

    fn look_at_triangles(&mut self, u: [i32; 6], v: [i32; 6]) -> Looked {
        let mut values = [0.0; 12];
        values[..6].copy_from_slice(&u.map(f64::from));
        values[6..].copy_from_slice(&v.map(f64::from));
        let (kind, common) = (decide(&values).kind, common_to(&values));
        self.missed |= kind == APART && common == Some(Common::Contact);
        if kind == TOUCHING {
            let contact = contact_of(&values);
            self.whole_edge |= contact == Some(Contact::WholeEdge);
            self.part_of_an_edge |= contact == Some(Contact::PartOfAnEdge);
            self.point |= contact == Some(Contact::Point);
        }
        let far = is_far(&values);
        if far {
            let alone = decision_of(&intersect(&values, &mut [0.0; ROOM]));
            self.else_overlapping |= alone.overlaps();
            self.else_touching |= alone.touches();
        }
        Looked { kind, truly_overlap: common == Some(Common::Area), far }
    }
}

/// What two triangles of a good file are.
struct Looked {
    kind: u32,
    /// Whether they truly share an area.
    truly_overlap: bool,
    /// Whether their boxes share no point.
    far: bool,
}
