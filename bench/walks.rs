// The walks of bench/walks.sh over a HashMap of vectors, for comparison.
use std::collections::{HashMap, HashSet};
use std::time::Instant;

const NODES: u32 = 100_000;
const P: u32 = 200_000;
const Q: u32 = 200_001;

#[derive(Default)]
struct Graph {
    objects: HashMap<(u32, u32), Vec<u32>>,
}

impl Graph {
    fn add(&mut self, subject: u32, predicate: u32, object: u32) {
        self.objects.entry((subject, predicate)).or_default().push(object);
    }

    fn follow(&self, node: u32, predicate: u32, looks: &mut Vec<(u32, u32)>) -> &[u32] {
        looks.push((node, predicate));
        self.objects.get(&(node, predicate)).map_or(&[], |found| found.as_slice())
    }
}

fn chain(nodes: u32) -> Graph {
    let mut graph = Graph::default();
    for node in 1..nodes {
        graph.add(node - 1, P, node);
        graph.add(node - 1, Q, node);
    }
    graph
}

fn star() -> Graph {
    let mut graph = Graph::default();
    for node in 1..NODES {
        graph.add(0, P, node);
    }
    graph
}

fn tree() -> Graph {
    let mut graph = Graph::default();
    for node in 1..NODES {
        graph.add((node - 1) / 2, P, node);
    }
    graph
}

fn ten_each() -> Graph {
    let mut graph = Graph::default();
    for node in 0..NODES {
        for place in 0..10u32 {
            graph.add(node, P, node.wrapping_mul(10).wrapping_add(place) % NODES);
            graph.add(node, Q, node.wrapping_mul(7).wrapping_add(place) % NODES);
        }
    }
    graph
}

fn sorted(nodes: HashSet<u32>) -> Vec<u32> {
    let mut all: Vec<u32> = nodes.into_iter().collect();
    all.sort_unstable();
    all
}

// p*
fn many(graph: &Graph, start: u32, looks: &mut Vec<(u32, u32)>) -> Vec<u32> {
    let mut entered = HashSet::from([start]);
    let mut queue = vec![start];
    while let Some(node) = queue.pop() {
        for next in graph.follow(node, P, looks) {
            if entered.insert(*next) {
                queue.push(*next);
            }
        }
    }
    sorted(entered)
}

// (p/q*)*, each node entered once before p and once before q
fn nested(graph: &Graph, start: u32, looks: &mut Vec<(u32, u32)>) -> Vec<u32> {
    let mut outer = HashSet::from([start]);
    let mut inner = HashSet::new();
    let mut queue = vec![(start, false)];
    while let Some((node, inside)) = queue.pop() {
        for next in graph.follow(node, if inside { Q } else { P }, looks) {
            if inner.insert(*next) {
                queue.push((*next, true));
                if outer.insert(*next) {
                    queue.push((*next, false));
                }
            }
        }
    }
    sorted(outer)
}

// p/q
fn two_steps(graph: &Graph, start: u32, looks: &mut Vec<(u32, u32)>) -> Vec<u32> {
    let middle: HashSet<u32> = graph.follow(start, P, looks).iter().copied().collect();
    let mut ends = HashSet::new();
    for node in middle {
        ends.extend(graph.follow(node, Q, looks));
    }
    sorted(ends)
}

type Walk = fn(&Graph, u32, &mut Vec<(u32, u32)>) -> Vec<u32>;

fn timed(what: &str, graph: &Graph, walk: Walk, starts: u32) {
    let mut best = u128::MAX;
    let (mut found, mut looks) = (0, 0);
    for _ in 0..5 {
        let start = Instant::now();
        (found, looks) = (0, 0);
        for node in 0..starts {
            let mut made = Vec::new();
            found += walk(graph, node, &mut made).len();
            looks += made.len();
        }
        best = best.min(start.elapsed().as_micros());
    }
    println!("{what} {best} us, {found} ends, {looks} looks");
}

fn main() {
    timed("chain             ", &chain(NODES), many, 1);
    timed("star              ", &star(), many, 1);
    timed("tree              ", &tree(), many, 1);
    for nodes in [25_000, 50_000, 100_000] {
        timed("nested repetitions", &chain(nodes), nested, 1);
    }
    timed("two steps, 1000   ", &ten_each(), two_steps, 1000);
}
