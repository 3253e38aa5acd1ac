//! Shortening a failing sequence: parts of it are left out while the failure stays.

/// The shortest sequence found whose failure stays; `fails` tells whether one still fails.
pub fn shorten<T: Clone>(calls: &[T], mut fails: impl FnMut(&[T]) -> bool) -> Vec<T> {
    let mut kept = calls.to_vec();
    let mut part = kept.len().div_ceil(2);
    while part > 0 {
        let before = kept.len();
        drop_parts(&mut kept, part, &mut fails);
        // single calls are tried until none can go
        part = match part {
            1 if kept.len() < before => 1,
            _ => part / 2,
        };
    }
    kept
}

/// Tries to leave out each part of this size once, from the back.
fn drop_parts<T: Clone>(kept: &mut Vec<T>, part: usize, fails: &mut impl FnMut(&[T]) -> bool) {
    let mut end = kept.len();
    while end > 0 {
        let start = end.saturating_sub(part);
        let mut without = kept[..start].to_vec();
        without.extend_from_slice(&kept[end..]);
        if fails(&without) {
            *kept = without;
        }
        end = start;
    }
}
