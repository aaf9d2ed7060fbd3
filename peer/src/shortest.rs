//! The search for the shortest list that still shows a difference: removes what is not needed.

/// Takes out as many items as it can while `differs` stays true, first in large parts, at last one by
/// one. It must be true of the items given; then it is true of the result, and of no result with one
/// more item taken out.
pub fn shortest<T: Clone>(mut items: Vec<T>, mut differs: impl FnMut(&[T]) -> bool) -> Vec<T> {
    let mut size = items.len().div_ceil(2).max(1);
    loop {
        let mut removed = false;
        let mut at = 0;
        while at < items.len() {
            let end = (at + size).min(items.len());
            let fewer = [&items[..at], &items[end..]].concat();
            if differs(&fewer) {
                items = fewer;
                removed = true;
            } else {
                at = end;
            }
        }
        if size > 1 {
            size = size.div_ceil(2);
        } else if !removed {
            return items;
        }
    }
}
