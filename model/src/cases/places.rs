//! Arguments in wrong places: what a call would lead to if it handed an argument on as another of the same type.

use std::array::from_fn;
use std::collections::BTreeSet;

/// Which of the arguments given stands in each place of those of its type: slices read, numbers, slices written.
pub struct Places<const W: usize> {
    pub read: [usize; 2],
    pub numbers: [usize; 4],
    pub written: [usize; W],
}

impl<const W: usize> Places<W> {
    /// Each in its own.
    pub fn right() -> Places<W> {
        Places { read: right(), numbers: right(), written: right() }
    }
}

fn right<const N: usize>() -> [usize; N] {
    from_fn(|place| place)
}

/// Every way to fill places with arguments but the right one.
pub fn fillings<const N: usize>() -> Vec<[usize; N]> {
    let all = (0..N.pow(N as u32)).map(|number| from_fn(|place| number / N.pow(place as u32) % N));
    all.filter(|places| *places != right()).collect()
}

/// Those that use each argument once, as slices that are written must.
pub fn exchanges<const N: usize>() -> Vec<[usize; N]> {
    let once = |places: &[usize; N]| places.iter().collect::<BTreeSet<_>>().len() == N;
    fillings().into_iter().filter(once).collect()
}

pub fn exchanged<T, const N: usize>(given: [T; N], places: [usize; N]) -> [T; N] {
    let mut given = given.map(Some);
    places.map(|place| given[place].take().expect("each is used once"))
}

/// None of the wrong ways leads to the line that the right one does.
pub fn assert_told<const N: usize>(line: &str, wrong: Vec<[usize; N]>, run: impl Fn([usize; N]) -> String) {
    for places in wrong {
        assert_ne!(run(places), line, "{places:?}");
    }
}

#[cfg(test)]
mod tests {
    use super::*;

    #[test]
    fn all_but_the_right_one() {
        assert_eq!(fillings(), [[0, 0], [1, 0], [1, 1]]);
        assert_eq!((fillings::<3>().len(), fillings::<4>().len()), (26, 255));
        assert_eq!(exchanges(), [[1, 0]]);
        assert_eq!(exchanges::<3>(), [[2, 1, 0], [1, 2, 0], [2, 0, 1], [0, 2, 1], [1, 0, 2]]);
    }

    #[test]
    fn arguments_in_their_new_places() {
        assert_eq!(exchanged(["a", "b", "c"], [2, 0, 1]), ["c", "a", "b"]);
    }

    #[test]
    #[should_panic(expected = "[1, 0]")]
    fn an_exchange_that_is_not_told() {
        assert_told("1 line", exchanges(), |_: [usize; 2]| "1 line".to_string());
    }
}
