//! The peer of `lvish_reach`, without proofs: prints which nodes the edges of a file reach from a root.

use std::collections::HashMap;
use std::io::Write;
use std::{env, fs, io};

fn main() -> io::Result<()> {
    let mut words = env::args().skip(1);
    let (Some(path), Some(root)) = (words.next(), words.next()) else {
        eprintln!("usage: reach_peer FILE ROOT");
        std::process::exit(2);
    };
    let text = fs::read(path)?;
    let mut graph = Graph::default();
    let first = graph.node(root.as_bytes());
    for line in text.split(|byte| *byte == b'\n') {
        graph.add_line(line);
    }
    let mut names: Vec<&[u8]> = graph.reached(first).into_iter().map(|node| graph.names[node]).collect();
    names.sort_unstable();
    let mut out = Vec::new();
    for name in names {
        out.extend_from_slice(name);
        out.push(b'\n');
    }
    io::stdout().write_all(&out)
}

#[derive(Default)]
struct Graph<'a> {
    numbers: HashMap<&'a [u8], usize>,
    names: Vec<&'a [u8]>,
    next: Vec<Vec<usize>>,
}

impl<'a> Graph<'a> {
    /// The number of a name, a new one where there is none.
    fn node(&mut self, name: &'a [u8]) -> usize {
        let Graph { numbers, names, next } = self;
        *numbers.entry(name).or_insert_with(|| {
            names.push(name);
            next.push(Vec::new());
            names.len() - 1
        })
    }

    /// Adds the edges of a line: from its first word to each other.
    fn add_line(&mut self, line: &'a [u8]) {
        let is_separator = |byte: &u8| matches!(byte, b' ' | b'\t' | b'\r');
        let words = line.split(is_separator).filter(|word| !word.is_empty());
        let mut words = words.take_while(|word| word[0] != b'#');
        if let Some(from) = words.next() {
            let from = self.node(from);
            for to in words {
                let to = self.node(to);
                self.next[from].push(to);
            }
        }
    }

    /// The nodes that edges lead to from this one.
    fn reached(&self, from: usize) -> Vec<usize> {
        let mut is_reached = vec![false; self.names.len()];
        is_reached[from] = true;
        let mut reached = vec![from];
        let mut done = 0;
        while done < reached.len() {
            for &to in &self.next[reached[done]] {
                if !is_reached[to] {
                    is_reached[to] = true;
                    reached.push(to);
                }
            }
            done += 1;
        }
        reached
    }
}
