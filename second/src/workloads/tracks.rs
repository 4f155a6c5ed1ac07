//! Boat tracks, and files of them whose leaks are listed.

use super::SEED;
use crate::case::point;
use crate::files::draft::{Draft, Triangle as Stored};
use crate::footprint::stored::{TEST, TRAINING};
use crate::random::Random;
use crate::triangles::numbers::Point;

pub type Triangle = [Point; 3];

/// The workloads that are such files; of the last there are several, each with a number behind its name.
pub const LEAKS: &str = "leaks";
pub const DIAGONALS: &str = "diagonals";
pub const CROWDED: &str = "crowded-";
/// Recordings of either set in these files; more of them would not fit.
pub const MOST_TRACKS: usize = 28;
/// Steps of a track in these files, and its triangles.
const STEPS: usize = 24;
const TRIANGLES: usize = 2 * STEPS;

/// Triangle pairs of the file with so many recordings of either set.
pub fn pairs_of_tracks(recordings: usize) -> usize {
    (TRIANGLES * recordings) * (TRIANGLES * recordings)
}

/// A test and a training track by turns, so many of either; none where there is no workload of that name.
pub fn file_of_tracks(name: &str, recordings: usize) -> Option<Vec<u8>> {
    let mut random = Random::new(SEED);
    let triangles = match name {
        LEAKS => scattered(&mut random, recordings),
        DIAGONALS => side_by_side(&mut random, recordings),
        _ => {
            let times = name.strip_prefix(CROWDED)?.parse().ok().filter(|times| *times > 0)?;
            scattered(&mut random, recordings).into_iter().map(|triangle| drawn_in(triangle, times)).collect()
        }
    };
    let ids: Vec<u32> = (0..2 * recordings).map(|_| random.bits() as u32).collect();
    let counts = vec![TRIANGLES as u16; 2 * recordings];
    Some(Draft::of(&ids, &counts, &[TEST, TRAINING].repeat(recordings), triangles).bytes())
}

/// Every fourth two cross; the others lie where chance puts them, most of them far apart.
fn scattered(random: &mut Random, recordings: usize) -> Vec<Stored> {
    let mut triangles = Vec::new();
    for k in 0..recordings {
        let (start, course) = (within(random, 400_000.0), within(random, 1.0));
        let across = point(-course.y, course.x);
        let other = match k % 4 {
            0 => beside(start, course, 12_000.0, across, -12_000.0),
            _ => within(random, 400_000.0),
        };
        triangles.extend(strip(random, start, course, STEPS));
        triangles.extend(strip(random, other, across, STEPS));
    }
    triangles.iter().map(stored).collect()
}

/// From the lower left to the upper right, so that the boxes around all tracks have much in common. A track
/// seldom gets into the way of its neighbours.
fn side_by_side(random: &mut Random, recordings: usize) -> Vec<Stored> {
    const HALF_LENGTH: f64 = 600_000.0;
    const FARTHEST_ASIDE: f64 = 350_000.0;
    let step = 2.0 * HALF_LENGTH * 2f64.sqrt() / STEPS as f64;
    let tracks = 2 * recordings;
    let mut triangles = Vec::new();
    for k in 0..tracks {
        let aside = FARTHEST_ASIDE * (2.0 * k as f64 / (tracks - 1) as f64 - 1.0);
        let start = point(aside - HALF_LENGTH, -aside - HALF_LENGTH);
        let bends = Bends { step, half_width: random.real(1_000.0, 2_000.0), most: 0.01 };
        triangles.extend(bends.strip(random, start, point(1.0, 1.0), STEPS));
    }
    triangles.iter().map(stored).collect()
}

/// Of the same size, but so many times nearer to the middle.
fn drawn_in([x0, y0, x1, y1, x2, y2]: Stored, times: i32) -> Stored {
    let by = [x0 + x1 + x2, y0 + y1 + y2].map(|sum| sum / 3 / times - sum / 3);
    [x0 + by[0], y0 + by[1], x1 + by[0], y1 + by[1], x2 + by[0], y2 + by[1]]
}

fn stored([a, b, c]: &Triangle) -> Stored {
    [a.x, a.y, b.x, b.y, c.x, c.y].map(|value| value as i32)
}

pub fn within(random: &mut Random, farthest: f64) -> Point {
    point(random.real(-farthest, farthest), random.real(-farthest, farthest))
}

pub fn beside(start: Point, course: Point, along: f64, across: Point, aside: f64) -> Point {
    let length = (course.x * course.x + course.y * course.y).sqrt();
    point(
        start.x + (along * course.x + aside * across.x) / length,
        start.y + (along * course.y + aside * across.y) / length,
    )
}

/// So many steps of a track that bends a little.
pub fn strip(random: &mut Random, start: Point, course: Point, steps: usize) -> Vec<Triangle> {
    let (step, half_width) = (random.real(700.0, 1_500.0), random.real(1_000.0, 2_000.0));
    Bends { step, half_width, most: 0.1 }.strip(random, start, course, steps)
}

/// How long a step of a track is, how wide the track, and how far it turns at a step.
struct Bends {
    step: f64,
    half_width: f64,
    most: f64,
}

impl Bends {
    /// Each step is a four-sided piece cut into two triangles.
    fn strip(&self, random: &mut Random, start: Point, course: Point, steps: usize) -> Vec<Triangle> {
        let (mut position, mut course) = (start, course);
        let mut banks = Vec::new();
        for _ in 0..=steps {
            let bend = random.real(-self.most, self.most);
            course = point(course.x - bend * course.y, course.y + bend * course.x);
            let across = point(-course.y, course.x);
            let whole = |p: Point| point(p.x.round(), p.y.round());
            let bank = |aside: f64| whole(beside(position, course, 0.0, across, aside));
            banks.push([self.half_width, -self.half_width].map(bank));
            position = beside(position, course, self.step, across, 0.0);
        }
        let pieces = banks.windows(2);
        pieces
            .flat_map(|bank| [[bank[0][0], bank[0][1], bank[1][0]], [bank[0][1], bank[1][1], bank[1][0]]])
            .collect()
    }
}

#[cfg(test)]
mod tests {
    use super::*;
    use crate::boxes::{boxes_of, near_pairs, Upright};
    use crate::footprint::lines_of;
    use crate::leaks::whole_list;

    fn file(name: &str, recordings: usize) -> Vec<u8> {
        file_of_tracks(name, recordings).expect("there is such a workload")
    }

    /// Of 1,806,336 triangle pairs, by the workload: those whose boxes share a point.
    #[test]
    fn near_ones() {
        assert_eq!(pairs_of_tracks(MOST_TRACKS), 1_806_336);
        let known = [
            ("leaks", 685),
            ("diagonals", 10_624),
            ("crowded-1", 685),
            ("crowded-5", 12_909),
            ("crowded-50", 136_385),
            ("crowded-100", 418_212),
            ("crowded-200", 1_077_498),
            ("crowded-1000", 1_806_315),
        ];
        for (name, near) in known {
            assert_eq!(near_pairs(&file(name, MOST_TRACKS)), near, "{name}");
        }
        for name in ["", "crowded", "crowded-", "crowded-0", "crowded--1", "leak"] {
            assert!(file_of_tracks(name, 1).is_none());
        }
    }

    /// Pairs of recordings whose own boxes share a point.
    fn recordings_that_meet(file: &[u8]) -> usize {
        let lines = lines_of(file).expect("a good file");
        let own = |set: u8| -> Vec<Upright> {
            let of_set = lines.iter().filter(|line| line.set == set);
            of_set.map(|line| Upright::around(&boxes_of(line.part(file)))).collect()
        };
        let trainings = own(TRAINING);
        own(TEST).iter().map(|test| trainings.iter().filter(|training| test.meets(training)).count()).sum()
    }

    #[test]
    fn diagonals_lie_in_one_another_s_boxes() {
        assert_eq!(recordings_that_meet(&file(DIAGONALS, MOST_TRACKS)), 28 * 28);
        assert_eq!(recordings_that_meet(&file(LEAKS, MOST_TRACKS)), 12);
    }

    #[test]
    fn tracks_overlap_here_and_there() {
        let overlapping = |name: &str, recordings: usize| {
            let list = whole_list(&file(name, recordings)).expect("a good file");
            list.leaks.iter().map(|leak| leak.pairs).sum::<u32>()
        };
        assert!((20..100).contains(&overlapping(LEAKS, 1)));
        assert!((20..200).contains(&overlapping(LEAKS, 5)));
        assert_eq!(overlapping(DIAGONALS, MOST_TRACKS), 389);
    }
}
