//! Makes a failing list short: drops items as long as the rest still fails.

/// `fails` gives the number of items up to the failure, or `None` where nothing fails.
pub fn shrink<T: Clone>(mut items: Vec<T>, fails: impl Fn(&[T]) -> Option<usize>) -> Vec<T> {
    if let Some(needed) = fails(&items) {
        items.truncate(needed);
    }
    let mut size = items.len().div_ceil(2).max(1);
    loop {
        let dropped = drop_pieces(&mut items, size, &fails);
        if size > 1 {
            size = size.div_ceil(2);
        } else if !dropped {
            return items;
        }
    }
}

/// Tries to drop each piece of this size, from the end on.
fn drop_pieces<T: Clone>(
    items: &mut Vec<T>,
    size: usize,
    fails: &impl Fn(&[T]) -> Option<usize>,
) -> bool {
    let mut dropped = false;
    let mut end = items.len();
    while end > 0 {
        let begin = end.saturating_sub(size);
        let mut rest = items[..begin].to_vec();
        rest.extend_from_slice(&items[end..]);
        if let Some(needed) = fails(&rest) {
            rest.truncate(needed);
            *items = rest;
            dropped = true;
        }
        end = begin.min(items.len());
    }
    dropped
}
