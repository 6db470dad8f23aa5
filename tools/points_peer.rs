//! The peer of `lvish_points_to`, without proofs: prints who points to whom by the facts of a file.

use std::collections::{HashMap, HashSet};
use std::io::Write;
use std::{env, fs, io};

fn main() -> io::Result<()> {
    let Some(path) = env::args().nth(1) else {
        eprintln!("usage: points_peer FILE");
        std::process::exit(2);
    };
    let text = fs::read(path)?;
    let mut analysis = Analysis::default();
    for line in text.split(|byte| *byte == b'\n') {
        analysis.add_line(line);
    }
    analysis.solve();
    io::stdout().write_all(&analysis.listing())
}

#[derive(Default)]
struct Analysis<'a> {
    numbers: HashMap<&'a [u8], usize>,
    names: Vec<&'a [u8]>,
    points: Vec<HashSet<usize>>,
    /// Where what a node points to flows to.
    flows: Vec<HashSet<usize>>,
    loads: Vec<Vec<usize>>,
    stores: Vec<Vec<usize>>,
    /// Pairs that are yet to be handed on.
    work: Vec<(usize, usize)>,
}

impl<'a> Analysis<'a> {
    /// The number of a name, a new one where there is none.
    fn node(&mut self, name: &'a [u8]) -> usize {
        if let Some(&number) = self.numbers.get(name) {
            return number;
        }
        let number = self.names.len();
        self.numbers.insert(name, number);
        self.names.push(name);
        self.points.push(HashSet::new());
        self.flows.push(HashSet::new());
        self.loads.push(Vec::new());
        self.stores.push(Vec::new());
        number
    }

    fn add_line(&mut self, line: &'a [u8]) {
        let is_separator = |byte: &u8| matches!(byte, b' ' | b'\t' | b'\r');
        let words = line.split(is_separator).filter(|word| !word.is_empty());
        let words: Vec<&[u8]> = words.take_while(|word| word[0] != b'#').collect();
        let [kind, left, right] = words[..] else {
            return;
        };
        let (left, right) = (self.node(left), self.node(right));
        match kind {
            b"address" => self.point(left, right),
            b"copy" => self.flow(right, left),
            b"load" => self.loads[right].push(left),
            b"store" => self.stores[left].push(right),
            _ => {}
        }
    }

    fn point(&mut self, pointer: usize, node: usize) {
        if self.points[pointer].insert(node) {
            self.work.push((pointer, node));
        }
    }

    fn flow(&mut self, from: usize, to: usize) {
        if self.flows[from].insert(to) {
            let all: Vec<usize> = self.points[from].iter().copied().collect();
            for node in all {
                self.point(to, node);
            }
        }
    }

    fn solve(&mut self) {
        while let Some((pointer, node)) = self.work.pop() {
            for to in self.flows[pointer].iter().copied().collect::<Vec<_>>() {
                self.point(to, node);
            }
            for to in self.loads[pointer].clone() {
                self.flow(node, to);
            }
            for from in self.stores[pointer].clone() {
                self.flow(from, node);
            }
        }
    }

    /// A line for each that points to anything, in the order of names.
    fn listing(&self) -> Vec<u8> {
        let mut order: Vec<usize> = (0..self.names.len()).collect();
        order.sort_unstable_by_key(|node| self.names[*node]);
        let mut out = Vec::new();
        for pointer in order {
            let mut names: Vec<&[u8]> = self.points[pointer].iter().map(|node| self.names[*node]).collect();
            if names.is_empty() {
                continue;
            }
            names.sort_unstable();
            out.extend_from_slice(self.names[pointer]);
            out.push(b':');
            for name in names {
                out.push(b' ');
                out.extend_from_slice(name);
            }
            out.push(b'\n');
        }
        out
    }
}
