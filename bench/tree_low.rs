// What it costs a tree to keep, at each fork, the least writer of a deletion below it. The tree is that of `hy_tree`, written
// once more in plain Rust, with that number and without it. Nothing here is proved.
//
//     tree_low ROWS TIMES
//
// It prints, for puts in the order of keys, puts in another order, and lookups, the least time of so many turns with the
// number and without it, in seconds. The two are measured turn by turn.

use std::env;
use std::hint::black_box;
use std::sync::Arc;
use std::time::{Duration, Instant};

type Key = u64;
type Pos = u32;

struct Row {
    key: Key,
    writer: Pos,
    value: Option<Arc<[u8]>>,
}

// `LOW` tells whether the number is kept. A branch has its place in both, so that both take as many bytes.
#[derive(Clone)]
enum Node<const LOW: bool> {
    Empty,
    Leaf(Pos, Arc<Row>),
    Fork(Pos, Arc<Branch<LOW>>),
}

struct Branch<const LOW: bool> {
    bit: u8,
    count: u16,
    low: Pos,
    prefix: Key,
    left: Node<LOW>,
    right: Node<LOW>,
}

impl<const LOW: bool> Node<LOW> {
    fn top(&self) -> Pos {
        match self {
            Node::Empty => 0,
            Node::Leaf(writer, _) => *writer,
            Node::Fork(top, _) => *top,
        }
    }

    fn low(&self) -> Pos {
        match self {
            Node::Empty => 0,
            Node::Leaf(writer, row) => if row.value.is_some() { 0 } else { *writer },
            Node::Fork(_, branch) => branch.low,
        }
    }

    fn count(&self) -> u64 {
        match self {
            Node::Empty => 0,
            Node::Leaf(..) => 1,
            Node::Fork(_, branch) if branch.count < u16::MAX => u64::from(branch.count),
            Node::Fork(_, branch) => branch.left.count() + branch.right.count(),
        }
    }

    fn stem(&self) -> Key {
        match self {
            Node::Empty => unreachable!(),
            Node::Leaf(_, row) => row.key,
            Node::Fork(_, branch) => (branch.prefix * 2) << branch.bit,
        }
    }

    fn fork(left: Self, right: Self) -> Self {
        let stem = left.stem();
        let bit = (stem ^ right.stem()).ilog2();
        let count = u16::try_from(left.count() + right.count()).unwrap_or(u16::MAX);
        let top = left.top().max(right.top());
        let low = if LOW { lesser_writer(left.low(), right.low()) } else { 0 };
        Node::Fork(top, Arc::new(Branch { bit: bit as u8, count, low, prefix: (stem >> bit) / 2, left, right }))
    }

    fn put(&self, row: Arc<Row>) -> Self {
        let leaf = |row: Arc<Row>| Node::Leaf(row.writer, row);
        match self {
            Node::Empty => leaf(row),
            Node::Leaf(_, old) if row.key == old.key => leaf(row),
            Node::Leaf(_, old) if row.key < old.key => Self::fork(leaf(row), self.clone()),
            Node::Leaf(..) => Self::fork(self.clone(), leaf(row)),
            Node::Fork(_, branch) => {
                let high = row.key >> branch.bit;
                if high / 2 < branch.prefix {
                    Self::fork(leaf(row), self.clone())
                } else if branch.prefix < high / 2 {
                    Self::fork(self.clone(), leaf(row))
                } else if high % 2 == 0 {
                    Self::fork(branch.left.put(row), branch.right.clone())
                } else {
                    Self::fork(branch.left.clone(), branch.right.put(row))
                }
            }
        }
    }

    fn get(&self, key: Key) -> Option<&Row> {
        match self {
            Node::Empty => None,
            Node::Leaf(_, row) => (row.key == key).then_some(row),
            Node::Fork(_, branch) => {
                let high = key >> branch.bit;
                if high / 2 != branch.prefix {
                    None
                } else if high % 2 == 0 {
                    branch.left.get(key)
                } else {
                    branch.right.get(key)
                }
            }
        }
    }
}

fn lesser_writer(writer: Pos, other: Pos) -> Pos {
    if writer == 0 {
        other
    } else if other == 0 {
        writer
    } else {
        writer.min(other)
    }
}

// Numbers that look random, and are the same in each run.
struct Draws(u64);

impl Draws {
    fn next(&mut self) -> u64 {
        self.0 = self.0.wrapping_mul(6364136223846793005).wrapping_add(1442695040888963407);
        self.0 >> 33
    }
}

fn timed<T>(work: impl FnOnce() -> T) -> (T, Duration) {
    let begun = Instant::now();
    let made = work();
    (made, begun.elapsed())
}

// Puts in the order of keys, puts in another, and lookups.
fn turn<const LOW: bool>(rows: &[Arc<Row>], shuffled: &[Arc<Row>]) -> [Duration; 3] {
    let put_all = |rows: &[Arc<Row>]| rows.iter().fold(Node::<LOW>::Empty, |tree, row| tree.put(row.clone()));
    let (_, in_order) = timed(|| black_box(put_all(rows)));
    let (tree, in_another) = timed(|| put_all(shuffled));
    let (_, looks) = timed(|| shuffled.iter().filter(|row| black_box(tree.get(row.key)).is_some()).count());
    black_box(tree.low());
    [in_order, in_another, looks]
}

fn main() {
    let words: Vec<usize> = env::args().skip(1).map(|word| word.parse().unwrap()).collect();
    let (count, times) = (words[0], words[1]);
    let value: Arc<[u8]> = Arc::from(&b"0123456789abcdef"[..]);
    // One row of eight is a deletion.
    let row = |at: usize| Row { key: 3 * at as Key, writer: at as Pos + 1, value: (at % 8 != 0).then(|| value.clone()) };
    let rows: Vec<_> = (0..count).map(|at| Arc::new(row(at))).collect();
    let (mut shuffled, mut draws) = (rows.clone(), Draws(7));
    for at in (1..count).rev() {
        shuffled.swap(at, draws.next() as usize % (at + 1));
    }
    let mut least = [[Duration::MAX; 3]; 2];
    for _ in 0..times {
        for (least, now) in least.iter_mut().zip([turn::<true>(&rows, &shuffled), turn::<false>(&rows, &shuffled)]) {
            for (least, now) in least.iter_mut().zip(now) {
                *least = now.min(*least);
            }
        }
    }
    for kind in 0..3 {
        println!("{:.6} {:.6}", least[0][kind].as_secs_f64(), least[1][kind].as_secs_f64());
    }
}
