//! Lists of positions for `insert_all`.

use crate::cases::{Call, Case, Edit, History, Lent};
use crate::inputs::{random_number, words_of, CALLERS, HUGE, MOST};
use crate::judge::{Difference, Judge};
use crate::prng::Prng;

/// The call with a list.
pub fn insert_all(list: &[u64], a: Lent) -> Case {
    Case { call: Call::InsertAll, a, b: Lent { length: 0, words: list.to_vec() }, out: Vec::new() }
}

/// Every list of `size` of the positions.
pub fn of_size(positions: &[usize], size: u32) -> impl Iterator<Item = Vec<u64>> + '_ {
    let n = positions.len();
    (0..n.pow(size)).map(move |k| (0..size).map(|place| positions[k / n.pow(place) % n] as u64).collect())
}

/// Short lists for a set of n bits: none, its ends, the edges of its words and repeats; and with a position that it does not have, at the first place, a
/// middle one and the last.
pub fn short(n: usize) -> Vec<Vec<u64>> {
    let (length, last, edge) = (n as u64, n.saturating_sub(1) as u64, (n.saturating_sub(1) / 64 * 64) as u64);
    let mut lists = vec![vec![], vec![0], vec![last], vec![last; 3], vec![last, 0, edge, edge.saturating_sub(1), 0, last]];
    for out in [length, length + 1, u64::MAX] {
        lists.extend([vec![out], vec![out, 0, last], vec![0, out, last], vec![0, last, out]]);
    }
    lists
}

/// Long lists: every position up and down, one of them 65,536 times, and 65,536 of which the first, a middle one or the last is not below n.
pub fn long(n: usize) -> Vec<Vec<u64>> {
    let last = n.saturating_sub(1) as u64;
    let mut lists = vec![(0..n as u64).collect(), (0..n as u64).rev().collect(), vec![last; MOST]];
    for place in [0, MOST / 2, MOST - 1] {
        let mut list: Vec<u64> = (0..MOST as u64).map(|k| k * 13 % n.max(1) as u64).collect();
        list[place] = n as u64;
        lists.push(list);
    }
    lists
}

/// A list of positions below the length, some more than once; once in three times any number is put at the first place, a middle one or the last.
pub fn random_list(random: &mut Prng, length: usize) -> Vec<u64> {
    let mut list = Vec::new();
    for _ in 0..random.few(8, 300) {
        list.push(if list.is_empty() || !random.once_in(8) { random.below(length.max(1)) as u64 } else { random.one_of(&list) });
    }
    if !list.is_empty() && random.once_in(3) {
        let place = random.one_of(&[0, list.len() / 2, list.len() - 1]);
        list[place] = if random.once_in(8) { random.one_of(&HUGE) } else { random_number(random, length) } as u64;
    }
    list
}

/// Histories with each short and each long list, at the edges of words; and with the list among others, empty parts, and parts that the lent list does
/// not have.
pub fn histories(judge: &mut Judge) -> Result<(), Difference> {
    for n in [0, 1, 63, 64, 65, MOST - 1, MOST] {
        for list in short(n).into_iter().chain(long(n)) {
            let size = list.len();
            let whole = Edit::InsertAll(&list).encode(0, 0);
            judge.check_history(&of_calls(n, &[whole], list.clone()))?;
            // The list after another and before one more, on the other set.
            let parts = [(0, 1), (1, 1 + size), (1 + size, 2 + size), (0, 0), (2, 1), (0, 3 + size), (2 + size, 3 + size), (usize::MAX, usize::MAX)];
            let calls = parts.map(|(x, y)| [1, 17, x as u64, y as u64, 0]);
            let positions = [vec![0], list, vec![n.saturating_sub(1) as u64]].concat();
            judge.check_history(&of_calls(n, &calls, positions))?;
        }
    }
    Ok(())
}

/// Calls on two sets of n bits, and their union.
fn of_calls(n: usize, calls: &[[u64; 5]], positions: Vec<u64>) -> History {
    let words = vec![CALLERS; words_of(n) + 1];
    let (calls, steps, out) = (calls.concat(), vec![0, 1, 1, 0], vec![CALLERS; 5]);
    History { a_bits: n, a_words: words.clone(), b_bits: n, b_words: words, calls, positions, walk: 3, steps, out }
}
