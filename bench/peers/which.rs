//! A plain Rust index of expressions in conjunctive form that finds as `rtb_bench which_find` does. `which N` reads the
//! expressions from standard input, makes the index once, finds N times, and prints the same line.
//!
//! The input is lines: `a ATTR VALUE` is a pair of the assignment, `e` begins an expression, `c` a clause of it, and
//! `p ATTR in|not VALUE ..` is a predicate of the clause. No attribute and no value has a space.

use std::collections::HashMap;
use std::io::Read;

type Key = (String, String);

/// A predicate that names a key.
#[derive(Clone, Copy)]
struct Entry {
    expression: u32,
    clause: u32,
    negated: bool,
}

#[derive(Default)]
struct Index {
    places: HashMap<Key, usize>,
    lists: Vec<Vec<Entry>>,
    /// How many predicates of each clause are negated: sixteen places an expression, with 1 where it has no clause.
    negated: Vec<u8>,
    /// The expressions each clause of which has a negated predicate.
    zeros: Vec<u32>,
}

impl Index {
    fn enter(&mut self, attr: &str, value: &str, entry: Entry) {
        let next = self.lists.len();
        let place = *self.places.entry((attr.to_string(), value.to_string())).or_insert(next);
        if place == next {
            self.lists.push(Vec::new());
        }
        self.lists[place].push(entry);
    }

    /// The numbers of the expressions that are true, from 1 on.
    fn find(&self, pairs: &[Key]) -> Vec<u32> {
        let lists: Vec<&[Entry]> = pairs
            .iter()
            .filter_map(|pair| self.places.get(pair))
            .map(|place| self.lists[*place].as_slice())
            .collect();
        let mut left = self.negated.clone();
        let mut held = vec![false; left.len()];
        for entry in lists.iter().copied().flatten() {
            let at = 16 * entry.expression as usize + entry.clause as usize;
            if entry.negated {
                left[at] -= 1;
            } else {
                held[at] = true;
            }
        }
        let is_true = |expression: u32| {
            let from = 16 * expression as usize;
            (from..from + 16).all(|at| held[at] || left[at] > 0)
        };
        let mut numbers: Vec<u32> = lists
            .iter()
            .copied()
            .flatten()
            .map(|entry| entry.expression)
            .chain(self.zeros.iter().copied())
            .filter(|expression| is_true(*expression))
            .map(|expression| expression + 1)
            .collect();
        numbers.sort_unstable();
        numbers.dedup();
        numbers
    }
}

/// The index and the assignment that the lines say.
fn read(text: &str) -> (Index, Vec<Key>) {
    let (mut index, mut pairs) = (Index::default(), Vec::new());
    let (mut expression, mut clause) = (0u32, 0u32);
    for line in text.lines() {
        let words: Vec<&str> = line.split(' ').collect();
        match words.as_slice() {
            ["a", attr, value] => pairs.push((attr.to_string(), value.to_string())),
            ["e"] => {
                expression = index.negated.len() as u32 / 16;
                index.negated.extend([1; 16]);
                clause = u32::MAX;
            }
            ["c"] => {
                clause = clause.wrapping_add(1);
                index.negated[16 * expression as usize + clause as usize] = 0;
            }
            ["p", attr, way, values @ ..] => {
                let negated = *way == "not";
                index.negated[16 * expression as usize + clause as usize] += u8::from(negated);
                for value in values {
                    index.enter(attr, value, Entry { expression, clause, negated });
                }
            }
            _ => panic!("{line}"),
        }
    }
    let count = index.negated.len() as u32 / 16;
    index.zeros = (0..count)
        .filter(|expression| index.negated[16 * *expression as usize..][..16].iter().all(|n| *n > 0))
        .collect();
    (index, pairs)
}

fn main() {
    let times: u32 = std::env::args().nth(1).and_then(|word| word.parse().ok()).expect("usage: which N");
    let mut text = String::new();
    std::io::stdin().read_to_string(&mut text).expect("a text");
    let (index, pairs) = read(&text);
    let mut sum = 0u64;
    for _ in 0..times {
        for number in index.find(&pairs) {
            sum = sum.wrapping_add(u64::from(number));
        }
    }
    println!("sum={sum}");
}
