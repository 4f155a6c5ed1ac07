//! What the signs of U's three vertices say by themselves, as a table: which vertices are in V, and which
//! edges cross which lines. Index and entry are octal numbers, and every digit holds three truth values: 4
//! stands for the first, 2 for the second and 1 for the third.

use crate::triangles::lines::Signs;
use crate::triangles::orders::lines_crossed;
use crate::triangles::ring::vertices_in_v;

/// Three digits for an index.
const NUMBERS: u16 = 0o1000;
/// How the numbers are laid out in the source text.
const IN_A_BLOCK: usize = 64;
const IN_A_ROW: usize = 4;

/// All entries, by their index.
pub fn numbers() -> Vec<u16> {
    (0..NUMBERS).map(entry_at).collect()
}

/// One digit for the vertices in V, then one for each edge with the lines that it crosses. It is 0 where a
/// vertex is minus on all three lines, which none can be.
fn entry_at(index: u16) -> u16 {
    let signs = signs_from(index);
    if signs.contains(&Signs::ALL_MINUS) {
        return 0;
    }
    let [edge_0, edge_1, edge_2] = [0, 1, 2].map(|edge| crosses(edge, &signs));
    number_from(&[vertices_in_v(&signs), edge_0, edge_1, edge_2])
}

/// One digit for each vertex, U0's the highest: whether it is plus on lines 0, 1 and 2.
fn signs_from(index: u16) -> [Signs; 3] {
    [index / 0o100, index / 0o10 % 0o10, index % 0o10].map(|digit| {
        let [x_plus, y_plus, w_plus] = truths_in(digit);
        Signs::of(x_plus, y_plus, w_plus)
    })
}

fn crosses(edge: usize, signs: &[Signs; 3]) -> [bool; 3] {
    let crossed = lines_crossed(edge, signs);
    [0, 1, 2].map(|line| crossed.as_slice().contains(&line))
}

fn truths_in(digit: u16) -> [bool; 3] {
    [digit / 4 == 1, digit / 2 % 2 == 1, digit % 2 == 1]
}

/// The highest digit first.
fn number_from(digits: &[[bool; 3]]) -> u16 {
    digits.iter().fold(0, |higher, digit| 0o10 * higher + digit_of(*digit))
}

fn digit_of([first, second, third]: [bool; 3]) -> u16 {
    4 * u16::from(first) + 2 * u16::from(second) + u16::from(third)
}

/// The table as a constant of a Rust program.
pub fn source_text() -> String {
    let blocks: String = numbers().chunks(IN_A_BLOCK).map(block_text).collect();
    format!("static TABLE: [[[u16; 4]; 16]; 8] = [\n{blocks}];\n")
}

fn block_text(block: &[u16]) -> String {
    let rows: String = block.chunks(IN_A_ROW).map(row_text).collect();
    format!("    [\n{rows}    ],\n")
}

fn row_text(row: &[u16]) -> String {
    let entries: Vec<String> = row.iter().map(|entry| format!("0o{entry:04o}")).collect();
    format!("        [{}],\n", entries.join(", "))
}

#[cfg(test)]
mod tests {
    use super::*;

    /// U0 is plus everywhere, U1 is minus on line 0 alone and U2 on line 1 alone. So U0 is in V (4). From U0
    /// to U1 the sign changes on line 0 (4), from U1 to U2 on lines 0 and 1 (4 + 2), from U2 to U0 on line 1
    /// (2).
    #[test]
    fn one_vertex_in_v() {
        assert_eq!(entry_at(0o735), 0o4462);
    }

    /// U0 and U2 are plus everywhere, U1 is plus on line 0 alone. So U0 and U2 are in V (4 + 1). From U0 to
    /// U1 the sign changes on lines 1 and 2 (2 + 1), from U1 to U2 on the same two, from U2 to U0 on none.
    #[test]
    fn two_vertices_in_v() {
        assert_eq!(entry_at(0o747), 0o5330);
    }

    /// U1 is minus three times. That U0 is in V, and that signs change on all three edges, does not count.
    #[test]
    fn a_vertex_that_is_minus_three_times() {
        assert_eq!(entry_at(0o705), 0);
    }

    /// An index without a digit 0 has one of seven at each of three places: that leaves 512 − 343.
    #[test]
    fn zeros_for_every_vertex_that_is_minus_three_times() {
        let numbers = numbers();
        assert_eq!(numbers.len(), 512);
        let with_a_zero: Vec<usize> = (0..512).filter(|index| format!("{index:03o}").contains('0')).collect();
        assert_eq!(with_a_zero.len(), 169);
        assert!(with_a_zero.iter().all(|index| numbers[*index] == 0));
    }

    /// The numbers are read back from the text in their order, 4 a row and 16 rows a block.
    #[test]
    fn the_text_holds_the_numbers() {
        let text = source_text();
        let lines: Vec<&str> = text.lines().collect();
        assert_eq!(lines.len(), 1 + 8 * (1 + 16 + 1) + 1);
        assert!(text.starts_with("static TABLE: [[[u16; 4]; 16]; 8] = [\n    [\n        [0o0000, 0o0000,"));
        assert!(text.ends_with("],\n    ],\n];\n"));
        let mut read = Vec::new();
        for block in lines[1..lines.len() - 1].chunks(18) {
            assert_eq!((block[0], block[17]), ("    [", "    ],"));
            for row in &block[1..17] {
                let entries = row.strip_prefix("        [").and_then(|rest| rest.strip_suffix("],"));
                let entries: Vec<&str> = entries.expect("a row in its brackets").split(", ").collect();
                assert_eq!(entries.len(), 4);
                for entry in entries {
                    let digits = entry.strip_prefix("0o").expect("an octal number");
                    assert_eq!(digits.len(), 4);
                    read.push(u16::from_str_radix(digits, 8).expect("octal digits"));
                }
            }
        }
        assert_eq!(read, numbers());
    }
}
