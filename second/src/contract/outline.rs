//! The hierarchy of WBS and OBS by level and sequence (2.1.7 of document 000).

use crate::table::Record;

pub(super) fn levels(elements: &[Record]) -> Vec<i64> {
    let level = |element: &Record| element.integer("Level");
    elements.iter().map(|element| level(element).expect("a readable table gives it")).collect()
}

/// For each element the index of its parent, the nearest earlier one of lower
/// level. The line holds the element before and its parents, the nearest last:
/// all others have a later one of their level or a lower one behind them.
pub(super) fn parents(levels: &[i64]) -> Vec<Option<usize>> {
    let mut line: Vec<usize> = Vec::new();
    let mut parents = Vec::new();
    for (at, level) in levels.iter().enumerate() {
        while line.last().map_or(false, |last| levels[*last] >= *level) {
            line.pop();
        }
        parents.push(line.last().copied());
        line.push(at);
    }
    parents
}

#[cfg(test)]
mod tests {
    use super::*;

    #[test]
    fn the_parent_is_the_nearest_earlier_element_of_lower_level() {
        let nearest =
            |levels: &[i64], at: usize| (0..at).rev().find(|earlier| levels[*earlier] < levels[at]);
        for levels in [&[1, 2, 3, 3, 2][..], &[1, 4, 4, 3, 0, 1], &[5, 4, 3], &[]] {
            let expected: Vec<Option<usize>> =
                (0..levels.len()).map(|at| nearest(levels, at)).collect();
            assert_eq!(parents(levels), expected);
        }
    }
}
