//! ARC(c) over page numbers in plain Rust, to compare the program's `paper C` with: arc_paper C < PAGES.
//!
//! The rules are those of Megiddo and Modha (FAST 2003, figure 4). Each page has a node in one table, with the list on which it stands and
//! its neighbours there, and std's hash map leads from a page to its node. Reads and writes like the program, but takes a text without
//! faults alone.
use std::collections::HashMap;
use std::fmt::Write as _;
use std::io::{self, Read, Write};

const T1: usize = 0;
const T2: usize = 1;
const B1: usize = 2;
const B2: usize = 3;
const NONE: u32 = u32::MAX;

struct Node {
    page: u64,
    list: usize,
    newer: u32,
    older: u32,
}

#[derive(Clone, Copy)]
struct List {
    newest: u32,
    oldest: u32,
    len: usize,
}

struct Arc {
    c: usize,
    p: usize,
    lists: [List; 4],
    nodes: Vec<Node>,
    free: Vec<u32>,
    places: HashMap<u64, u32>,
}

impl Arc {
    fn new(c: usize) -> Arc {
        let list = List { newest: NONE, oldest: NONE, len: 0 };
        Arc {
            c,
            p: 0,
            lists: [list; 4],
            nodes: Vec::with_capacity(2 * c),
            free: Vec::with_capacity(2 * c),
            places: HashMap::with_capacity(2 * c),
        }
    }

    fn len(&self, list: usize) -> usize {
        self.lists[list].len
    }

    fn unlink(&mut self, at: u32) {
        let Node { list, newer, older, .. } = self.nodes[at as usize];
        match newer {
            NONE => self.lists[list].newest = older,
            _ => self.nodes[newer as usize].older = older,
        }
        match older {
            NONE => self.lists[list].oldest = newer,
            _ => self.nodes[older as usize].newer = newer,
        }
        self.lists[list].len -= 1;
    }

    fn push(&mut self, list: usize, at: u32) {
        let older = self.lists[list].newest;
        let node = &mut self.nodes[at as usize];
        node.list = list;
        node.newer = NONE;
        node.older = older;
        match older {
            NONE => self.lists[list].oldest = at,
            _ => self.nodes[older as usize].newer = at,
        }
        self.lists[list].newest = at;
        self.lists[list].len += 1;
    }

    fn replace(&mut self, in_b2: bool) {
        let n = self.len(T1);
        let from = if n > 0 && (n > self.p || (in_b2 && n == self.p)) { T1 } else { T2 };
        let at = self.lists[from].oldest;
        if at != NONE {
            self.unlink(at);
            self.push(from + 2, at);
        }
    }

    fn delete_oldest(&mut self, list: usize) {
        let at = self.lists[list].oldest;
        if at != NONE {
            self.unlink(at);
            self.places.remove(&self.nodes[at as usize].page);
            self.free.push(at);
        }
    }

    fn admit(&mut self, page: u64) {
        let node = Node { page, list: T1, newer: NONE, older: NONE };
        let at = match self.free.pop() {
            Some(at) => {
                self.nodes[at as usize] = node;
                at
            }
            None => {
                self.nodes.push(node);
                self.nodes.len() as u32 - 1
            }
        };
        self.places.insert(page, at);
        self.push(T1, at);
    }

    fn page(&mut self, page: u64) -> bool {
        let Some(&at) = self.places.get(&page) else {
            let recent = self.len(T1) + self.len(B1);
            let all = recent + self.len(T2) + self.len(B2);
            if recent == self.c {
                if self.len(T1) < self.c {
                    self.delete_oldest(B1);
                    self.replace(false);
                } else {
                    self.delete_oldest(T1);
                }
            } else if all >= self.c {
                if all == 2 * self.c {
                    self.delete_oldest(B2);
                }
                self.replace(false);
            }
            self.admit(page);
            return false;
        };
        let list = self.nodes[at as usize].list;
        let (b1, b2) = (self.len(B1), self.len(B2));
        match list {
            B1 => {
                self.p = self.c.min(self.p + if b1 >= b2 { 1 } else { b2 / b1 });
                self.replace(false);
            }
            B2 => {
                self.p = self.p.saturating_sub(if b2 >= b1 { 1 } else { b1 / b2 });
                self.replace(true);
            }
            _ => {}
        }
        self.unlink(at);
        self.push(T2, at);
        list < B1
    }
}

fn main() -> io::Result<()> {
    let c = std::env::args().nth(1).and_then(|word| word.parse().ok()).expect("a number of pages");
    let mut text = String::new();
    io::stdin().read_to_string(&mut text)?;
    let mut arc = Arc::new(c);
    let mut out = String::new();
    let mut hits = 0;
    let pages = text.lines().filter(|line| !line.is_empty() && !line.starts_with('#'));
    for (number, line) in pages.enumerate() {
        let hit = arc.page(line.parse().expect("a page"));
        hits += u32::from(hit);
        let word = if hit { "hit" } else { "miss" };
        writeln!(out, "{number} {word}").expect("a string takes all");
    }
    let [t1, t2, b1, b2] = arc.lists.map(|list| list.len);
    write!(out, "paper c {c} p {} t1 {t1} t2 {t2} b1 {b1} b2 {b2} hits {hits}\nend 0\n", arc.p).expect("a string takes all");
    io::stdout().write_all(out.as_bytes())
}
