// The counterpart of bench/term_index.sh: the same work on Rust's HashMap, Vec and BTreeSet, whose clones stand for shares.
use std::collections::{BTreeSet, HashMap};
use std::time::Instant;

const TERMS: u32 = 300_000;
const TRIPLES: u32 = 1_000_000;

#[derive(Clone, PartialEq, Eq, Hash)]
enum Term {
    Iri(String),
    Literal { lexical: String, datatype: String, language: Option<String> },
}

type Key = [u32; 3];

#[derive(Clone, Default)]
struct Index {
    subjects: BTreeSet<Key>,
    predicates: BTreeSet<Key>,
    objects: BTreeSet<Key>,
}

impl Index {
    fn at_once(triples: &[Key]) -> Index {
        Index {
            subjects: triples.iter().copied().collect(),
            predicates: triples.iter().map(|[s, p, o]| [*p, *s, *o]).collect(),
            objects: triples.iter().map(|[s, p, o]| [*o, *p, *s]).collect(),
        }
    }

    fn add(&mut self, [s, p, o]: Key) {
        self.subjects.insert([s, p, o]);
        self.predicates.insert([p, s, o]);
        self.objects.insert([o, p, s]);
    }

    fn remove(&mut self, [s, p, o]: Key) {
        self.subjects.remove(&[s, p, o]);
        self.predicates.remove(&[p, s, o]);
        self.objects.remove(&[o, p, s]);
    }
}

fn next(seed: u32) -> u32 {
    seed.wrapping_mul(1_664_525).wrapping_add(1_013_904_223)
}

fn all_terms() -> Vec<Term> {
    (0..TERMS)
        .map(|place| {
            let number = place.wrapping_mul(7919) % TERMS;
            if number % 3 == 2 {
                Term::Literal {
                    lexical: format!("Product number {number}"),
                    datatype: "http://www.w3.org/2001/XMLSchema#string".to_string(),
                    language: None,
                }
            } else {
                Term::Iri(format!("http://example.org/resource/{}", 100_000_000_000u64 + u64::from(number)))
            }
        })
        .collect()
}

fn at(numbers: &[u32], place: u32) -> u32 {
    numbers.get(place as usize).copied().unwrap_or(0)
}

fn triple(numbers: &[u32], group: u32, seed: u32) -> Key {
    [at(numbers, group.wrapping_mul(7919) % 200_000), at(numbers, group % 100), at(numbers, (seed >> 4) % TERMS)]
}

fn all_triples(numbers: &[u32]) -> Vec<Key> {
    let mut seed = 1;
    (0..TRIPLES)
        .map(|place| {
            seed = next(seed);
            triple(numbers, place / 10, seed)
        })
        .collect()
}

fn tell(what: &str, start: Instant, count: u64) {
    let spent = start.elapsed().as_nanos();
    println!("{what} {} ms, {} ns each", spent / 1_000_000, spent / u128::from(count.max(1)));
}

fn named(terms: &[Term]) -> (HashMap<Term, u32>, Vec<Term>, Vec<u32>) {
    let mut by_term = HashMap::new();
    let mut by_number = Vec::new();
    let mut numbers = Vec::with_capacity(terms.len());
    for term in terms {
        let number = *by_term.entry(term.clone()).or_insert_with(|| {
            by_number.push(term.clone());
            by_number.len() as u32 - 1
        });
        numbers.push(number);
    }
    (by_term, by_number, numbers)
}

fn look_up(by_term: &HashMap<Term, u32>, by_number: &[Term], terms: &[Term]) {
    let start = Instant::now();
    let (mut sum, mut seed) = (0u64, 1);
    for _ in 0..TRIPLES {
        seed = next(seed);
        sum += u64::from(by_term[&terms[((seed >> 4) % TERMS) as usize]]);
    }
    tell("terms looked up     ", start, 1_000_000);
    let start = Instant::now();
    let mut found = 0;
    for _ in 0..TRIPLES {
        seed = next(seed);
        if let Some(Term::Iri(_)) = by_number.get(((seed >> 4) % TERMS) as usize) {
            found += 1;
        }
    }
    tell("numbers looked up   ", start, 1_000_000);
    println!("  (sum {sum}, {found} IRIs)");
}

fn read(index: &Index, numbers: &[u32]) {
    let start = Instant::now();
    let (mut found, mut seed) = (0, 1);
    for _ in 0..100_000 {
        seed = next(seed);
        let [s, p, _] = triple(numbers, (seed >> 4) % 100_000, seed);
        let objects: Vec<u32> = index.subjects.range([s, p, 0]..=[s, p, u32::MAX]).map(|key| key[2]).collect();
        found += objects.len();
    }
    tell("finds of ten        ", start, 100_000);
    let start = Instant::now();
    let mut scanned = 0;
    for place in 0..100 {
        let p = at(numbers, place);
        let pairs: Vec<(u32, u32)> =
            index.predicates.range([p, 0, 0]..=[p, u32::MAX, u32::MAX]).map(|key| (key[1], key[2])).collect();
        scanned += pairs.len();
    }
    tell("scans of a predicate", start, scanned as u64);
    println!("  ({found} found, {scanned} scanned)");
}

fn share(index: &mut Index, numbers: &[u32]) {
    let rounds = 5u64;
    let start = Instant::now();
    let mut seed = 7;
    for _ in 0..rounds {
        seed = next(seed);
        let share = index.clone();
        let mut inner = seed;
        for _ in 0..100 {
            inner = next(inner);
            let changed = triple(numbers, (inner >> 4) % 100_000, next(inner));
            if (inner >> 8) % 2 == 0 {
                index.add(changed);
            } else {
                index.remove(changed);
            }
        }
        drop(share);
    }
    tell("clone, 100 changes  ", start, rounds);
    println!("  ({} triples)", index.subjects.len());
}

fn at_once() {
    let terms = all_terms();
    let start = Instant::now();
    let (by_term, by_number, numbers) = named(&terms);
    tell("terms               ", start, 300_000);
    let triples = all_triples(&numbers);
    let start = Instant::now();
    let mut index = Index::at_once(&triples);
    tell("triples at once     ", start, 1_000_000);
    look_up(&by_term, &by_number, &terms);
    read(&index, &numbers);
    share(&mut index, &numbers);
}

fn singly() {
    let terms = all_terms();
    let start = Instant::now();
    let (by_term, _by_number, numbers) = named(&terms);
    tell("terms               ", start, 300_000);
    let triples = all_triples(&numbers);
    let start = Instant::now();
    let mut index = Index::default();
    for triple in &triples {
        index.add(*triple);
    }
    tell("triples one by one  ", start, 1_000_000);
    println!("  ({} terms, {} triples)", by_term.len(), index.subjects.len());
}

// What the terms and the triples themselves hold.
fn held() {
    let terms = all_terms();
    let triples = all_triples(&[]);
    println!("  ({} terms, {} triples)", terms.len(), triples.len());
}

fn main() {
    match std::env::args().count() {
        1 => at_once(),
        2 => singly(),
        _ => held(),
    }
}
