//! A draft in a report.

use std::fmt::Debug;

use super::draft::Draft;

/// All of its short lists, and of a long one the beginning and the end.
pub fn text_of(draft: &Draft) -> String {
    let lists = [
        ("ids", list(&draft.ids)),
        ("counts", list(&draft.counts)),
        ("sets", list(&draft.sets)),
        ("lasts", list(&draft.lasts)),
        ("numbers", list(&draft.numbers)),
    ];
    lists.map(|(name, text)| format!("{name} {text}\n")).concat()
}

fn list<T: Debug>(list: &[T]) -> String {
    const SHORT: usize = 420;
    const PART: usize = 30;
    if list.len() <= SHORT {
        return format!("({}): {list:?}", list.len());
    }
    let (front, back) = (&list[..PART], &list[list.len() - PART..]);
    format!("({}): {front:?} .. {back:?}", list.len())
}
