//! Makes a failing sequence shorter: operations are dropped, many at a time and then fewer, as long as it still fails.

/// The first operation, which gives the room, stays. `fails` is asked at most `attempts` times.
pub fn shrink<T: Clone>(ops: &[T], mut attempts: usize, mut fails: impl FnMut(&[T]) -> bool) -> Vec<T> {
    let mut kept = ops.to_vec();
    let mut size = kept.len() / 2;
    while size > 0 {
        let mut dropped = false;
        // From the back, so that what is looked at next has not moved.
        let mut end = kept.len();
        while end > 1 && attempts > 0 {
            let start = end.saturating_sub(size).max(1);
            let shorter = [&kept[..start], &kept[end..]].concat();
            attempts -= 1;
            if fails(&shorter) {
                kept = shorter;
                dropped = true;
            }
            end = start;
        }
        // One by one again as long as something goes: an operation may be needed only by one that is gone.
        if size > 1 || !dropped || attempts == 0 {
            size /= 2;
        }
    }
    kept
}

#[cfg(test)]
mod tests {
    use super::shrink;

    #[test]
    fn only_what_is_needed_stays() {
        let ops: Vec<usize> = (0..100).collect();
        let fails = |ops: &[usize]| ops.contains(&17) && ops.contains(&80);
        assert_eq!(shrink(&ops, 1000, fails), [0, 17, 80]);
    }

    #[test]
    fn what_only_a_dropped_one_needs_goes_too() {
        // 5 fails wherever 4 is absent; 4 is harmless only while 3 is there.
        let fails = |ops: &[usize]| ops.contains(&5) && (!ops.contains(&4) || ops.contains(&3));
        assert_eq!(shrink(&[0, 1, 2, 3, 4, 5], 1000, fails), [0, 5]);
    }

    #[test]
    fn attempts_are_bounded() {
        let mut asked = 0;
        shrink(&[0; 1000], 50, |_| {
            asked += 1;
            false
        });
        assert_eq!(asked, 50);
    }
}
