//! A plain Rust index that answers as `rtb_bench find` does: the same generator, the same campaigns and
//! impressions, the same line. `index WAY PROFILE CAMPAIGNS N`, where WAY is `cursors` (Whang et al.,
//! VLDB 2009, section 4: the lists stand in the order of what their cursors show, and skip) or `counting`
//! (a counter for each conjunction, kept from impression to impression).
//!
//! `index bytes PROFILE CAMPAIGNS N` makes the index alone.

use std::collections::HashMap;

struct Draws(u64);

impl Draws {
    fn below(&mut self, k: u64) -> u64 {
        self.0 = self
            .0
            .wrapping_mul(6_364_136_223_846_793_005)
            .wrapping_add(1_442_695_040_888_963_407);
        (self.0 >> 33) % k
    }
}

/// How the values of an attribute are drawn: a number of bits from `.0` on, of `.1` many.
type Field = (u64, u64);

const SELECTIVE: [Field; 8] = [(5, 9), (5, 9), (5, 9), (5, 8), (5, 9), (5, 10), (5, 7), (5, 9)];
const BROAD: [Field; 8] = [(1, 4), (1, 2), (1, 4), (1, 2), (1, 4), (1, 2), (1, 1), (1, 2)];

fn value(field: Field, draws: &mut Draws) -> String {
    let bits = field.0 + draws.below(field.1);
    draws.below(1 << bits).to_string()
}

/// An attribute of the profile, by its place, and a value.
type Key = (u8, String);

struct Pred {
    attr: u8,
    negated: bool,
    values: Vec<String>,
}

fn conjunction(fields: &[Field; 8], draws: &mut Draws) -> Vec<Pred> {
    let mut place = draws.below(8);
    let stride = 2 * draws.below(4) + 1;
    let mut preds = Vec::new();
    for i in 0..2 + draws.below(3) {
        let negated = draws.below(8) == 0 && i > 0;
        let count = 1 + draws.below(4);
        let mut values: Vec<String> = (0..count)
            .map(|_| value(fields[place as usize], draws))
            .collect();
        values.sort_unstable();
        values.dedup();
        preds.push(Pred {
            attr: place as u8,
            negated,
            values,
        });
        place = (place + stride) % 8;
    }
    preds
}

/// The conjunctions of all campaigns, each with its campaign's number.
fn campaigns(fields: &[Field; 8], n: u32) -> Vec<(u32, Vec<Pred>)> {
    let mut draws = Draws(1);
    let mut all = Vec::new();
    for number in 1..=n {
        for _ in 0..1 + draws.below(3) {
            all.push((number, conjunction(fields, &mut draws)));
        }
    }
    all
}

fn impressions(fields: &[Field; 8], n: u32) -> Vec<Vec<Key>> {
    let mut draws = Draws(2);
    let mut all = Vec::new();
    for _ in 0..n {
        let absent = draws.below(16);
        let mut pairs = Vec::new();
        for (i, field) in fields.iter().enumerate() {
            let value = value(*field, &mut draws);
            if i as u64 != absent {
                pairs.push((i as u8, value));
            }
        }
        all.push(pairs);
    }
    all
}

/// A posting: twice the conjunction's number, and one more where it is not negated.
type Entry = u32;

#[derive(Default)]
struct Part {
    places: HashMap<Key, usize>,
    lists: Vec<Vec<Entry>>,
}

struct Index {
    owners: Vec<u32>,
    parts: Vec<Part>,
}

impl Index {
    fn build(all: &[(u32, Vec<Pred>)]) -> Index {
        let mut parts: Vec<Part> = Vec::new();
        for (id, (_, preds)) in all.iter().enumerate() {
            let size = preds.iter().filter(|pred| !pred.negated).count();
            while parts.len() <= size {
                parts.push(Part::default());
            }
            let part = &mut parts[size];
            for pred in preds {
                for value in &pred.values {
                    let next = part.lists.len();
                    let place = *part.places.entry((pred.attr, value.clone())).or_insert(next);
                    if place == next {
                        part.lists.push(Vec::new());
                    }
                    part.lists[place].push(2 * id as u32 + u32::from(!pred.negated));
                }
            }
        }
        for part in &mut parts {
            part.lists.iter_mut().for_each(Vec::shrink_to_fit);
        }
        Index {
            owners: all.iter().map(|(number, _)| *number).collect(),
            parts,
        }
    }

    /// The lists of the pairs in the part of this size. No conjunction of the generator has size 0.
    fn lists<'a>(&'a self, size: usize, pairs: &[Key], lists: &mut Vec<&'a [Entry]>) {
        lists.clear();
        let part = &self.parts[size];
        lists.extend(
            pairs
                .iter()
                .filter_map(|pair| part.places.get(pair))
                .map(|place| part.lists[*place].as_slice()),
        );
    }
}

/// What a way of matching keeps from impression to impression.
struct Room {
    counts: Vec<u8>,
    /// The conjunctions of one part whose count got as far as the part's size.
    reached: Vec<u32>,
    /// A bit for each conjunction that is found.
    found: Vec<u64>,
}

impl Room {
    fn new(conjunctions: usize) -> Room {
        Room {
            counts: vec![0; conjunctions],
            reached: Vec::new(),
            found: vec![0; conjunctions.div_ceil(64)],
        }
    }

    fn find(&mut self, id: u32) {
        self.found[id as usize / 64] |= 1 << (id % 64);
    }

    /// The campaigns that are found, and a new beginning.
    fn take(&mut self, owners: &[u32]) -> Vec<u32> {
        let count: u32 = self.found.iter().map(|word| word.count_ones()).sum();
        let mut numbers = Vec::with_capacity(count as usize);
        for (place, word) in self.found.iter_mut().enumerate() {
            let mut rest = std::mem::take(word);
            while rest != 0 {
                let owner = owners[64 * place + rest.trailing_zeros() as usize];
                if numbers.last() != Some(&owner) {
                    numbers.push(owner);
                }
                rest &= rest - 1;
            }
        }
        numbers
    }
}

const EXCLUDED: u8 = 128;

/// Counts the entries of each conjunction. Fewer than 128 lists are there.
fn count(lists: &[&[Entry]], k: usize, room: &mut Room) {
    let counts = room.counts.as_mut_slice();
    room.reached.clear();
    for list in lists {
        for entry in *list {
            let count = &mut counts[(entry >> 1) as usize];
            if entry & 1 == 0 {
                *count |= EXCLUDED;
            } else {
                *count += 1;
                if *count as usize == k {
                    room.reached.push(entry >> 1);
                }
            }
        }
    }
    for id in &room.reached {
        if counts[*id as usize] < EXCLUDED {
            room.found[*id as usize / 64] |= 1 << (id % 64);
        }
    }
    let entries: usize = lists.iter().map(|list| list.len()).sum();
    if entries >= counts.len() / 16 {
        counts.fill(0);
    } else {
        for list in lists {
            for entry in *list {
                counts[(entry >> 1) as usize] = 0;
            }
        }
    }
}

/// The first place from `from` on whose entry is at least `entry`.
fn skip(list: &[Entry], from: usize, entry: Entry) -> usize {
    let mut step = 1;
    let mut low = from;
    while low + step < list.len() && list[low + step] < entry {
        low += step;
        step *= 2;
    }
    let high = (low + step).min(list.len());
    low + list[low..high].partition_point(|other| *other < entry)
}

/// The conjunction algorithm of the paper: the cursors in the order of what they show; where the first
/// `k` show one conjunction it is found, else they skip to what the `k`th shows.
fn cursors(lists: &[&[Entry]], k: usize, room: &mut Room) {
    let mut all: Vec<(Entry, &[Entry], usize)> =
        lists.iter().map(|list| (list[0], *list, 0)).collect();
    let step = |cursor: &mut (Entry, &[Entry], usize), entry: Entry| {
        cursor.2 = skip(cursor.1, cursor.2, entry);
        cursor.0 = cursor.1.get(cursor.2).copied().unwrap_or(Entry::MAX);
    };
    loop {
        all.sort_unstable_by_key(|cursor| cursor.0);
        if all.len() < k || all[k - 1].0 == Entry::MAX {
            return;
        }
        let id = all[k - 1].0 >> 1;
        if all[0].0 >> 1 == id {
            if all[0].0 & 1 == 1 {
                room.find(id);
            }
            for cursor in all.iter_mut().take_while(|cursor| cursor.0 >> 1 == id) {
                step(cursor, 2 * (id + 1));
            }
        } else {
            for cursor in all.iter_mut().take(k - 1) {
                step(cursor, 2 * id);
            }
        }
    }
}

fn find(index: &Index, way: &str, pairs: &[Key], room: &mut Room) -> Vec<u32> {
    let mut lists = Vec::new();
    for size in 1..index.parts.len().min(pairs.len() + 1) {
        index.lists(size, pairs, &mut lists);
        if lists.len() < size {
            continue;
        }
        if way == "cursors" {
            cursors(&lists, size, room);
        } else {
            count(&lists, size, room);
        }
    }
    room.take(&index.owners)
}

fn main() {
    let words: Vec<String> = std::env::args().skip(1).collect();
    let [way, profile, campaigns_word, impressions_word] = words.as_slice() else {
        eprintln!("usage: index cursors|counting|bytes selective|broad CAMPAIGNS N");
        std::process::exit(2);
    };
    let fields = if profile == "broad" { &BROAD } else { &SELECTIVE };
    let all = campaigns(fields, campaigns_word.parse().expect("a number"));
    let asked = impressions(fields, impressions_word.parse().expect("a number"));
    let index = Index::build(&all);
    if way == "bytes" {
        return;
    }
    let mut room = Room::new(index.owners.len());
    let (mut found, mut check) = (0u64, 0u64);
    for pairs in &asked {
        let numbers = find(&index, way, pairs, &mut room);
        found += numbers.len() as u64;
        for number in numbers {
            check = check.wrapping_mul(31).wrapping_add(u64::from(number));
        }
    }
    println!("found={found} check={check}");
}
