//! The logarithmic scale of the traversal counts: which share of the cheapest routes passes a point. It is the same for
//! every picture.

/// How many classes there are.
pub const CLASSES: usize = 8;

/// The class of a traversal count. The last has the points that all cheapest routes pass, the one before it those that
/// at least half of them pass, each class before that those with half the share, and the first the rest.
pub fn class_of(count: u64, total: u64) -> usize {
    if count == total {
        return CLASSES - 1;
    }
    let at_least = |halvings: &usize| u128::from(count) << halvings >= u128::from(total);
    (1..CLASSES - 1).find(at_least).map_or(0, |halvings| CLASSES - 1 - halvings)
}

/// The least share of each class.
pub fn labels() -> [String; CLASSES] {
    std::array::from_fn(|class| match CLASSES - 1 - class {
        0 => "all".to_string(),
        halvings if class > 0 => format!("1/{}", 1 << halvings),
        _ => "fewer".to_string(),
    })
}

#[cfg(test)]
mod tests {
    use super::*;

    #[test]
    fn shares() {
        assert_eq!(labels(), ["fewer", "1/64", "1/32", "1/16", "1/8", "1/4", "1/2", "all"]);
        let of_1000 = [(1, 0), (15, 0), (16, 1), (31, 1), (32, 2), (63, 3), (125, 4), (250, 5), (499, 5), (500, 6)];
        for (count, class) in of_1000 {
            assert_eq!(class_of(count, 1000), class, "{count}");
        }
        assert_eq!([class_of(1, 1), class_of(1, 2), class_of(1, 3), class_of(2, 3)], [7, 6, 5, 6]);
    }

    /// Counts of 64 bits do not overflow.
    #[test]
    fn large_counts() {
        let total = u64::MAX;
        assert_eq!([total, total - 1, total / 2 + 1, total / 2].map(|count| class_of(count, total)), [7, 6, 6, 5]);
        assert_eq!([class_of(1, total), class_of(1 << 58, total), class_of((1 << 58) - 1, total)], [0, 1, 0]);
    }
}
