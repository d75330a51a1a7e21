//! Column widths by the formula of The TeXbook, page 245, over all entries, with no merging.

use crate::measure::Extent;

/// An entry as the formula sees it: its columns, counted from 0, and its natural width.
#[derive(Clone, Debug, PartialEq, Eq)]
pub struct Spread {
    pub first: usize,
    pub last: usize,
    pub natural: Extent,
}

/// The width of each column on each side; nothing for a column in which no entry ends.
/// `gaps` holds the natural length of the gap after each column, as it enters each side.
pub fn column_widths(entries: &[Spread], gaps: &[Extent]) -> Vec<Option<Extent>> {
    let mut widths: Vec<Option<Extent>> = vec![];
    for column in 0..gaps.len() {
        widths.push(width_of(column, entries, &widths, gaps));
    }
    widths
}

/// The larger-of, over the entries that end in the column, of what each still needs there.
fn width_of(column: usize, entries: &[Spread], before: &[Option<Extent>], gaps: &[Extent]) -> Option<Extent> {
    entries
        .iter()
        .filter(|entry| entry.last == column)
        .map(|entry| (entry.first..column).fold(entry.natural.clone(), |rest, k| less_column(rest, k, before, gaps)))
        .reduce(|a, b| larger_of(&a, &b))
}

/// Less column k and the gap after it; a void column takes nothing, nor does its gap.
fn less_column(rest: Extent, k: usize, widths: &[Option<Extent>], gaps: &[Extent]) -> Extent {
    match (widths.get(k), gaps.get(k)) {
        (Some(Some(width)), Some(gap)) => difference(&difference(&rest, width), gap),
        _ => rest,
    }
}

fn difference(a: &Extent, b: &Extent) -> Extent {
    a.iter().zip(b).map(|(a, b)| a - b).collect()
}

fn larger_of(a: &Extent, b: &Extent) -> Extent {
    a.iter().zip(b).map(|(a, b)| *a.max(b)).collect()
}

#[cfg(test)]
mod tests {
    use super::*;
    use crate::random::Rng;

    fn spread(first: usize, last: usize, natural: i64) -> Spread {
        Spread { first: first - 1, last: last - 1, natural: vec![natural] }
    }

    fn widths(gaps: &[i64], entries: &[Spread]) -> Vec<Option<i64>> {
        let gaps: Vec<Extent> = gaps.iter().map(|&g| vec![g]).collect();
        column_widths(entries, &gaps).into_iter().map(|w| w.map(|w| w[0])).collect()
    }

    #[test]
    fn m1_to_m4() {
        let m1 = [spread(1, 1, 10), spread(2, 2, 20), spread(1, 2, 50)];
        assert_eq!(widths(&[2, 3, 4], &m1), [Some(10), Some(38), None]);
        assert_eq!(widths(&[5, 0], &[spread(1, 1, 40), spread(1, 2, 30)]), [Some(40), Some(-15)]);
        assert_eq!(widths(&[5, 0], &[spread(1, 2, 30)]), [None, Some(30)]);
        let m4 = [spread(1, 1, 10), spread(2, 2, 20), spread(3, 3, 5), spread(2, 3, 60), spread(1, 3, 100)];
        assert_eq!(widths(&[1, 2, 0], &m4), [Some(10), Some(20), Some(67)]);
    }

    /// THEORY.md: 50 - (10 + 2) = 38 joins the 20, and the edges are 10, 50, 53 with N = 53.
    #[test]
    fn the_table_of_the_theory() {
        let entries = [spread(1, 1, 10), spread(2, 2, 20), spread(1, 2, 50)];
        let gaps = [2, 3, 4];
        let found = widths(&gaps, &entries);
        let mut edge = 0;
        let mut edges = vec![];
        for (width, gap) in found.iter().zip(gaps) {
            edges.push(edge + width.unwrap_or(0));
            edge += width.map_or(0, |w| w + gap);
        }
        assert_eq!((edges, edge), (vec![10, 50, 53], 53));
    }

    /// The rightward merge of The Program, for this test alone.
    fn merged(gaps: &[i64], entries: &[Spread]) -> Vec<Option<i64>> {
        let n = gaps.len();
        let mut table = vec![vec![None::<i64>; n]; n];
        let join = |cell: &mut Option<i64>, w: i64| *cell = Some(cell.map_or(w, |old| old.max(w)));
        for e in entries {
            join(&mut table[e.first][e.last], e.natural[0]);
        }
        for q in 0..n {
            let taken = table[q][q].map_or(0, |w| w + gaps[q]);
            for j in q + 1..n {
                if let Some(w) = table[q][j] {
                    join(&mut table[q + 1][j], w - taken);
                }
            }
        }
        (0..n).map(|q| table[q][q]).collect()
    }

    #[test]
    fn the_formula_is_what_the_merge_gives() {
        let mut rng = Rng::new(11);
        for _ in 0..5_000 {
            let n = 1 + rng.below(8);
            let gaps: Vec<i64> = (0..n).map(|_| rng.from_to(-9, 9)).collect();
            let entries: Vec<Spread> = (0..rng.below(10))
                .map(|_| {
                    let first = rng.below(n);
                    Spread { first, last: first + rng.below(n - first), natural: vec![rng.from_to(-40, 90)] }
                })
                .collect();
            assert_eq!(widths(&gaps, &entries), merged(&gaps, &entries));
        }
    }
}
