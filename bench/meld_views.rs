// How many places a meld looks at, by the rows that are late in it, over the log of a generated load. The tree and the walk
// are those of `hy_tree` and `hy_meld`, written once more in plain Rust with a count: there a count takes no bytes and can't
// be read. Nothing here is proved.
//
//     meld_views SEED SIZE

#[path = "plain_load.rs"]
mod plain_load;

use plain_load::{Entry, GROUP, Key, Pos, WINDOW, run};
use std::rc::Rc;

type Tree = Rc<Node>;

// The shape follows from the keys: a fork stands at the highest bit in which they differ.
enum Node {
    Empty,
    Row { key: Key, writer: Pos },
    Fork { bit: u32, prefix: Key, top: Pos, left: Tree, right: Tree },
}

fn top(tree: &Tree) -> Pos {
    match **tree {
        Node::Empty => 0,
        Node::Row { writer, .. } => writer,
        Node::Fork { top, .. } => top,
    }
}

// A number that agrees with the keys above the low bits, and how many these are.
fn root(tree: &Tree) -> Option<(Key, u32)> {
    match **tree {
        Node::Empty => None,
        Node::Row { key, .. } => Some((key, 0)),
        Node::Fork { bit, prefix, .. } => Some(((prefix * 2) << bit, bit + 1)),
    }
}

fn fork(left: Tree, right: Tree) -> Tree {
    let (Some((stem, _)), Some((other, _))) = (root(&left), root(&right)) else {
        panic!("a side of a fork is empty");
    };
    let bit = (stem ^ other).ilog2();
    let top = top(&left).max(top(&right));
    Rc::new(Node::Fork { bit, prefix: (stem >> bit) / 2, top, left, right })
}

fn put(tree: &Tree, key: Key, writer: Pos) -> Tree {
    let row = Rc::new(Node::Row { key, writer });
    match &**tree {
        Node::Empty => row,
        Node::Row { key: old, .. } if *old == key => row,
        Node::Row { key: old, .. } if key < *old => fork(row, tree.clone()),
        Node::Row { .. } => fork(tree.clone(), row),
        Node::Fork { bit, prefix, left, right, .. } => {
            let high = key >> bit;
            if high / 2 < *prefix {
                fork(row, tree.clone())
            } else if *prefix < high / 2 {
                fork(tree.clone(), row)
            } else if high % 2 == 0 {
                fork(put(left, key, writer), right.clone())
            } else {
                fork(left.clone(), put(right, key, writer))
            }
        }
    }
}

fn each_row(tree: &Tree, f: &mut impl FnMut(Key, Pos)) {
    match &**tree {
        Node::Empty => {}
        Node::Row { key, writer } => f(*key, *writer),
        Node::Fork { left, right, .. } => {
            each_row(left, f);
            each_row(right, f);
        }
    }
}

// Rows past a position.
fn count_late(tree: &Tree, base: Pos) -> u64 {
    if top(tree) <= base {
        return 0;
    }
    match &**tree {
        Node::Fork { left, right, .. } => count_late(left, base) + count_late(right, base),
        _ => 1,
    }
}

// Blocks of keys, by their first and last ones, and up to which position their writers are known. Each has as many keys as a
// power of two, and begins at a multiple of that. They stand in order.
type Mark = (Key, Key, Pos);

// The blocks of a span: the widest that fits, and then those behind it.
fn cover(mut lo: Key, hi: Key, known: Pos, marks: &mut Vec<Mark>) {
    while lo <= hi {
        let bits = lo.trailing_zeros().min((hi - lo + 1).ilog2());
        marks.push((lo, lo + (1 << bits) - 1, known));
        lo += 1 << bits;
    }
}

fn marks_of(entry: &Entry, base: Pos) -> Vec<Mark> {
    let known = entry.snap.max(base);
    let keys = entry.points.iter().chain(entry.writes.iter().map(|w| &w.0));
    let mut marks: Vec<Mark> = keys.map(|key| (*key, *key, known)).collect();
    for span in &entry.spans {
        cover(span.0, span.1, known, &mut marks);
    }
    marks
}

// The least position up to which a mark knows the key.
fn dependency(marks: &[Mark], key: Key) -> Option<Pos> {
    marks.iter().filter(|m| m.0 <= key && key <= m.1).map(|m| m.2).min()
}

fn lesser(known: Option<Pos>, other: Option<Pos>) -> Option<Pos> {
    known.into_iter().chain(other).min()
}

fn is_past(known: Option<Pos>, writer: Pos) -> bool {
    known.is_some_and(|known| known < writer)
}

fn is_late(marks: &[Mark], key: Key, writer: Pos) -> bool {
    is_past(dependency(marks, key), writer)
}

// The halves of a block at a bit, by a number in the block.
fn half_blocks(stem: Key, bit: u32) -> [(Key, Key); 2] {
    let low = ((stem >> bit) / 2 * 2) << bit;
    let half = 1 << bit;
    [(low, low + (half - 1)), (low + half, low + half + (half - 1))]
}

// The marks that begin in a block, and what is known of all of it.
fn narrowed(marks: &[Mark], known: Option<Pos>, (lo, hi): (Key, Key)) -> (&[Mark], Option<Pos>) {
    let (before, rest) = marks.split_at(marks.partition_point(|m| m.0 < lo));
    let (inner, _) = rest.split_at(rest.partition_point(|m| m.0 <= hi));
    (inner, lesser(known, dependency(before, lo)))
}

struct Meld {
    base: Pos,
    views: u64,
}

// The halves of a tree at a bit no lower than that of its fork.
fn sides(tree: &Tree, bit: u32) -> (Tree, Tree) {
    let empty = Rc::new(Node::Empty);
    match &**tree {
        Node::Fork { bit: own, left, right, .. } if *own == bit => (left.clone(), right.clone()),
        _ => match root(tree) {
            None => (empty.clone(), empty),
            Some((stem, _)) if (stem >> bit) % 2 == 0 => (tree.clone(), empty),
            Some(_) => (empty, tree.clone()),
        },
    }
}

impl Meld {
    // Whether a key of a block without writes clashes.
    fn has_clash(&mut self, cur: &Tree, marks: &[Mark], known: Option<Pos>) -> bool {
        let Some(from) = (if marks.is_empty() { known } else { Some(self.base) }) else {
            return false;
        };
        let by = top(cur);
        if by <= from {
            return false;
        }
        self.views += 1;
        match &**cur {
            Node::Empty => false,
            Node::Row { key, .. } => is_past(lesser(known, dependency(marks, *key)), by),
            Node::Fork { bit, prefix, left, right, .. } => {
                let [lower, upper] = half_blocks((prefix * 2) << bit, *bit);
                let (inner, whole) = narrowed(marks, known, lower);
                let (others, of_others) = narrowed(marks, known, upper);
                self.has_clash(left, inner, whole) || self.has_clash(right, others, of_others)
            }
        }
    }

    // The melded tree, none where a key clashes.
    fn block(&mut self, cur: &Tree, ready: &Tree, marks: &[Mark], known: Option<Pos>, writes: &[Key]) -> Option<Tree> {
        if top(cur) <= self.base {
            return Some(ready.clone());
        }
        if writes.is_empty() {
            return if self.has_clash(cur, marks, known) { None } else { Some(cur.clone()) };
        }
        self.views += 2;
        let (stem, bits) = root(cur).unwrap();
        let joint = match root(ready) {
            None => bits,
            Some((other, _)) if stem == other => bits.max(root(ready).unwrap().1),
            Some((other, other_bits)) => bits.max(other_bits).max((stem ^ other).ilog2() + 1),
        };
        if joint == 0 {
            if is_past(lesser(known, dependency(marks, stem)), top(cur)) {
                return None;
            }
            return Some(ready.clone());
        }
        let bit = joint - 1;
        let (lower, upper) = writes.split_at(writes.partition_point(|key| (key >> bit) % 2 == 0));
        let ((cur_left, cur_right), (left, right)) = (sides(cur, bit), sides(ready, bit));
        let blocks = half_blocks(stem, bit);
        let (inner, whole) = narrowed(marks, known, blocks[0]);
        let left = self.block(&cur_left, &left, inner, whole, lower)?;
        let (inner, whole) = narrowed(marks, known, blocks[1]);
        let right = self.block(&cur_right, &right, inner, whole, upper)?;
        Some(fork(left, right))
    }
}

fn touches(marks: &[Mark], key: Key) -> bool {
    marks.iter().any(|m| m.0 <= key && key <= m.1)
}

fn main() {
    let words: Vec<String> = std::env::args().collect();
    let log = run(words[1].parse().unwrap(), words[2].parse().unwrap()).log;
    let empty: Tree = Rc::new(Node::Empty);
    let (mut tree, mut kept, mut base_tree) = (empty.clone(), empty.clone(), empty);
    let (mut melds, mut with_late, mut views, mut late, mut sum) = (0u64, 0u64, 0u64, 0u64, 0f64);
    for (n, group) in log.chunks(GROUP).enumerate() {
        let base = GROUP * WINDOW * (n / WINDOW).saturating_sub(1);
        let (mut marks, mut writes): (Vec<Mark>, Vec<(Key, Pos)>) = (Vec::new(), Vec::new());
        for (at, entry) in group.iter().enumerate() {
            let Some(entry) = entry else { continue };
            let own = marks_of(entry, 0);
            let mut old = false;
            each_row(&base_tree, &mut |key, writer| old |= is_late(&own, key, writer));
            if old || writes.iter().any(|w| touches(&own, w.0)) {
                continue;
            }
            marks.extend(marks_of(entry, base));
            writes.extend(entry.writes.iter().map(|w| (w.0, n * GROUP + at + 1)));
        }
        marks.sort();
        writes.sort();
        let ready = writes.iter().fold(base_tree.clone(), |tree, w| put(&tree, w.0, w.1));
        let keys: Vec<Key> = writes.iter().map(|w| w.0).collect();
        let mut meld = Meld { base, views: 0 };
        let c = count_late(&tree, base);
        tree = meld.block(&tree, &ready, &marks, None, &keys).unwrap_or(tree);
        melds += 1;
        views += meld.views;
        late += c;
        if c > 0 {
            with_late += 1;
            sum += meld.views as f64 / c as f64;
        }
        if (n + 1) % WINDOW == 0 {
            base_tree = kept;
            kept = tree.clone();
        }
    }
    println!("melds {melds} views {views} late rows {late}");
    println!("views a late row {:.2}, mean over melds with late rows {:.2}", views as f64 / late as f64, sum / with_late as f64);
}
