// Rolls a log as `hyder` does, in plain Rust: groups are staged beside the finishing of the window before, with ready trees,
// early end and trees whose nodes are shared. What it takes is what the processor and its caches allow such trees, without
// contracts. Its entries have no spans. Nothing here is proved.
//
//     plain_roll DEVICE THREADS FIRST
//
// It reads the log of a device, rolls the first entries, and tells what the rest took:
//
//     commits 5987 rows 1000 seconds 0.012

use std::sync::Arc;
use std::thread;
use std::time::Instant;

type Key = u64;
type Pos = u32;

struct Row {
    key: Key,
    writer: Pos,
    // Kept and let go with the row.
    _value: Option<Arc<[u8]>>,
}

// ---- the tree

// The greatest writer stands beside the pointer.
enum Node {
    Empty,
    Leaf(Pos, Arc<Row>),
    Fork(Pos, Arc<Branch>),
}

struct Branch {
    bit: u32,
    count: u32,
    prefix: Key,
    left: Node,
    right: Node,
}

use Node::{Empty, Fork, Leaf};

static NOTHING: Node = Empty;

impl Node {
    fn share(&self) -> Node {
        match self {
            Empty => Empty,
            Leaf(writer, row) => Leaf(*writer, row.clone()),
            Fork(top, branch) => Fork(*top, branch.clone()),
        }
    }

    fn top(&self) -> Pos {
        match self {
            Empty => 0,
            Leaf(top, _) | Fork(top, _) => *top,
        }
    }

    fn count(&self) -> u32 {
        match self {
            Empty => 0,
            Leaf(..) => 1,
            Fork(_, branch) => branch.count,
        }
    }

    // A number that agrees with the keys above the low bits, and how many these are.
    fn root(&self) -> (Key, u32) {
        match self {
            Empty => unreachable!(),
            Leaf(_, row) => (row.key, 0),
            Fork(_, branch) => ((branch.prefix * 2) << branch.bit, branch.bit + 1),
        }
    }
}

fn leaf(row: Arc<Row>) -> Node {
    Leaf(row.writer, row)
}

fn fork(left: Node, right: Node) -> Node {
    let (stem, other) = (left.root().0, right.root().0);
    let bit = (stem ^ other).ilog2();
    let (top, count) = (left.top().max(right.top()), left.count() + right.count());
    let prefix = (stem >> bit) / 2;
    Fork(top, Arc::new(Branch { bit, count, prefix, left, right }))
}

fn put(tree: &Node, row: Arc<Row>) -> Node {
    match tree {
        Empty => leaf(row),
        Leaf(_, old) if row.key == old.key => leaf(row),
        Leaf(_, old) if row.key < old.key => fork(leaf(row), tree.share()),
        Leaf(..) => fork(tree.share(), leaf(row)),
        Fork(_, branch) => {
            let high = row.key >> branch.bit;
            if high / 2 < branch.prefix {
                fork(leaf(row), tree.share())
            } else if branch.prefix < high / 2 {
                fork(tree.share(), leaf(row))
            } else if high % 2 == 0 {
                fork(put(&branch.left, row), branch.right.share())
            } else {
                fork(branch.left.share(), put(&branch.right, row))
            }
        }
    }
}

// How many of the rows lack the bit. They are the first ones.
fn count_lower(rows: &[Arc<Row>], bit: u32) -> usize {
    rows.partition_point(|row| (row.key >> bit) % 2 == 0)
}

// The tree with these rows in place, which stand in the order of their keys.
fn apply(tree: &Node, rows: &[Arc<Row>]) -> Node {
    if let Fork(_, branch) = tree {
        if rows.len() > 1 && rows.iter().all(|row| (row.key >> branch.bit) / 2 == branch.prefix) {
            let (lower, upper) = rows.split_at(count_lower(rows, branch.bit));
            return fork(apply(&branch.left, lower), apply(&branch.right, upper));
        }
    }
    rows.iter().fold(tree.share(), |tree, row| put(&tree, row.clone()))
}

// ---- marks

// A key, and up to which position its writers are known.
type Mark = (Key, Pos);

fn is_late(tree: &Node, mark: Mark) -> bool {
    if tree.top() <= mark.1 {
        return false;
    }
    match tree {
        Empty => false,
        Leaf(_, row) => row.key == mark.0,
        Fork(_, branch) => {
            let high = mark.0 >> branch.bit;
            high / 2 == branch.prefix && is_late(if high % 2 == 0 { &branch.left } else { &branch.right }, mark)
        }
    }
}

// Whether a marked key has a writer past what is known of it, in a tree that has nothing to put.
fn is_past(tree: &Node, marks: &[Mark], base: Pos) -> bool {
    if tree.top() <= base {
        return false;
    }
    let (stem, bits) = tree.root();
    let low = if bits == 64 { 0 } else { stem >> bits << bits };
    let high = if bits == 64 { Key::MAX } else { low + ((1 << bits) - 1) };
    let marks = &marks[marks.partition_point(|mark| mark.0 < low)..];
    let marks = &marks[..marks.partition_point(|mark| mark.0 <= high)];
    if marks.is_empty() {
        return false;
    }
    match tree {
        Fork(_, branch) => is_past(&branch.left, marks, base) || is_past(&branch.right, marks, base),
        _ => marks.iter().any(|mark| mark.1 < tree.top()),
    }
}

// The sides of a tree at a bit no lower than that of its fork.
fn sides(tree: &Node, bit: u32) -> (&Node, &Node) {
    match tree {
        Empty => (&NOTHING, &NOTHING),
        Fork(_, branch) if branch.bit == bit => (&branch.left, &branch.right),
        _ if (tree.root().0 >> bit) % 2 == 0 => (tree, &NOTHING),
        _ => (&NOTHING, tree),
    }
}

// The current tree with the rows in place, or none where a marked key is late.
fn meld(cur: &Node, ready: &Node, marks: &[Mark], rows: &[Arc<Row>], base: Pos) -> Option<Node> {
    if cur.top() <= base {
        return Some(ready.share());
    }
    if rows.is_empty() {
        return if is_past(cur, marks, base) { None } else { Some(cur.share()) };
    }
    let (stem, bits) = cur.root();
    let (other, other_bits) = ready.root();
    let differing = stem ^ other;
    let joint = bits.max(other_bits).max(if differing == 0 { 0 } else { differing.ilog2() + 1 });
    if joint == 0 {
        return if is_past(cur, marks, base) { None } else { Some(ready.share()) };
    }
    let (left, right) = sides(cur, joint - 1);
    let (ready_left, ready_right) = sides(ready, joint - 1);
    let (lower, upper) = rows.split_at(count_lower(rows, joint - 1));
    let left = meld(left, ready_left, marks, lower, base)?;
    Some(fork(left, meld(right, ready_right, marks, upper, base)?))
}

// ---- groups and windows

struct Entry {
    snap: Pos,
    points: Vec<Key>,
    puts: Vec<(Key, Arc<[u8]>)>,
}

struct Staged {
    base: Pos,
    joined: u32,
    marks: Vec<Mark>,
    rows: Vec<Arc<Row>>,
    ready: Node,
}

struct Log {
    group: usize,
    window: usize,
    entries: Vec<Entry>,
}

impl Log {
    // The position up to which a group's base tree goes, by how many entries come before its window.
    fn base(&self, before: usize) -> usize {
        before.saturating_sub(self.group * self.window)
    }

    fn stage(&self, tree: &Node, base: Pos, at: usize) -> Staged {
        let (mut marks, mut rows, mut joined): (Vec<Mark>, Vec<Arc<Row>>, u32) = (Vec::new(), Vec::new(), 0);
        for (turn, entry) in self.entries[at..at + self.group].iter().enumerate() {
            let keys = || entry.points.iter().copied().chain(entry.puts.iter().map(|put| put.0));
            let known = entry.snap.max(base);
            if keys().any(|key| is_late(tree, (key, entry.snap))) || keys().any(|key| rows.iter().any(|row| row.key == key && known < row.writer)) {
                continue;
            }
            let writer = (at + turn + 1) as Pos;
            joined += 1;
            marks.extend(keys().map(|key| (key, known)));
            rows.extend(entry.puts.iter().map(|put| Arc::new(Row { key: put.0, writer, _value: Some(put.1.clone()) })));
        }
        marks.sort_unstable();
        rows.sort_unstable_by_key(|row| row.key);
        let ready = apply(tree, &rows);
        Staged { base, joined, marks, rows, ready }
    }

    fn stage_run(&self, tree: &Node, base: Pos, from: usize, groups: usize) -> Vec<Staged> {
        (0..groups).map(|turn| self.stage(tree, base, from + turn * self.group)).collect()
    }

    // The groups of a window, cut into as many runs as there may be threads.
    fn stage_window(&self, tree: &Node, base: Pos, from: usize, groups: usize, threads: usize) -> Vec<Staged> {
        let runs = threads.min(groups);
        if runs <= 1 {
            return self.stage_run(tree, base, from, groups);
        }
        let place = |run: usize| groups * run / runs;
        thread::scope(|scope| {
            let others: Vec<_> = (1..runs)
                .map(|run| scope.spawn(move || self.stage_run(tree, base, from + place(run) * self.group, place(run + 1) - place(run))))
                .collect();
            let mut all = self.stage_run(tree, base, from, place(1));
            others.into_iter().for_each(|other| all.extend(other.join().unwrap()));
            all
        })
    }
}

struct Rolled {
    at: usize,
    tree: Node,
    commits: u32,
}

impl Rolled {
    fn finish(&mut self, run: &[Staged], group: usize) {
        for staged in run {
            if let Some(tree) = meld(&self.tree, &staged.ready, &staged.marks, &staged.rows, staged.base) {
                self.tree = tree;
                self.commits += staged.joined;
            }
            self.at += group;
        }
    }

    // Rolls the log up to a position at the end of a window, from another one.
    fn roll(&mut self, log: &Log, end: usize, threads: usize) {
        let size = log.group * log.window;
        let groups = |from: usize| (end - from).min(size) / log.group;
        let mut run = log.stage_window(&self.tree, self.at as Pos, self.at, groups(self.at), threads);
        let mut finished = Vec::new();
        let mut from = self.at + groups(self.at) * log.group;
        while from < end {
            // The rows before the window that is finished now are the base of the next one.
            let (kept, base) = (self.tree.share(), log.base(from) as Pos);
            let next = if threads == 1 {
                drop(finished);
                self.finish(&run, log.group);
                log.stage_run(&kept, base, from, groups(from))
            } else {
                thread::scope(|scope| {
                    let (kept, finished) = (&kept, finished);
                    let staging = scope.spawn(move || {
                        drop(finished);
                        log.stage_window(kept, base, from, groups(from), threads)
                    });
                    self.finish(&run, log.group);
                    staging.join().unwrap()
                })
            };
            finished = std::mem::replace(&mut run, next);
            from += groups(from) * log.group;
        }
        self.finish(&run, log.group);
    }
}

// ---- the device

fn number(bytes: &[u8]) -> u64 {
    bytes.iter().rev().fold(0, |number, byte| number * 256 + u64::from(*byte))
}

fn read_log(device: &[u8]) -> Log {
    let (group, window) = (usize::from(device[10]), usize::from(device[11]));
    let (mut at, mut entries) = (256, Vec::new());
    while at < device.len() && device[at] != 0 {
        let size = number(&device[at + 1..at + 5]) as usize;
        let body = &device[at + 5..at + 5 + size];
        let (points, spans, puts) = (usize::from(body[7]), body[8], usize::from(body[9]));
        assert_eq!(spans, 0);
        let mut rest = &body[10..];
        let mut take = |size: usize| {
            let (taken, more) = rest.split_at(size);
            rest = more;
            taken
        };
        let points = (0..points).map(|_| number(take(8))).collect();
        let puts = (0..puts)
            .map(|_| {
                let key = number(take(8));
                assert_eq!(take(1), [1]);
                let size = number(take(2)) as usize;
                (key, take(size).into())
            })
            .collect();
        entries.push(Entry { snap: number(&body[3..7]) as Pos, points, puts });
        at += (5 + size).div_ceil(256) * 256;
    }
    Log { group, window, entries }
}

fn main() {
    let words: Vec<String> = std::env::args().collect();
    let log = read_log(&std::fs::read(&words[1]).unwrap());
    let (threads, first): (usize, usize) = (words[2].parse().unwrap(), words[3].parse().unwrap());
    let mut rolled = Rolled { at: 0, tree: Empty, commits: 0 };
    // The first ones end with a window, so that the rest begins with one.
    let size = log.group * log.window;
    let first = first.div_ceil(size) * size;
    let whole = log.entries.len() / log.group * log.group;
    if first > 0 {
        rolled.roll(&log, first, 1);
    }
    let began = Instant::now();
    rolled.roll(&log, whole, threads);
    let seconds = began.elapsed().as_secs_f64();
    println!("commits {} rows {} seconds {:.4}", rolled.commits, rolled.tree.count(), seconds);
}
