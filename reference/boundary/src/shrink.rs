//! Makes an input smaller for as long as it still shows a difference.

/// The fewest items found that still fail: stretches of them are left out,
/// long ones first.
pub fn shrink<T: Clone>(items: &[T], fails: impl Fn(&[T]) -> bool) -> Vec<T> {
    let mut kept = items.to_vec();
    let mut size = kept.len();
    while size > 0 {
        let mut at = 0;
        let mut shorter = false;
        while at < kept.len() {
            let mut fewer = kept.clone();
            fewer.drain(at..kept.len().min(at + size));
            if fails(&fewer) {
                kept = fewer;
                shorter = true;
            } else {
                at += size;
            }
        }
        // Once more at one item, for as long as it helps.
        if size > 1 || !shorter {
            size /= 2;
        }
    }
    kept
}

/// The same items, those replaced that make no difference.
pub fn plain<T: Clone + PartialEq>(items: &[T], plain: &T, fails: impl Fn(&[T]) -> bool) -> Vec<T> {
    let mut kept = items.to_vec();
    for at in 0..kept.len() {
        let old = std::mem::replace(&mut kept[at], plain.clone());
        if old != *plain && !fails(&kept) {
            kept[at] = old;
        }
    }
    kept
}
