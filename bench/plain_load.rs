// What `hyder load` does, as a plain Rust program: the same words, programs, schedule and rules, and the same summary.
// Each of the four servers keeps its own state and judges the whole log by itself. With `once` the log is judged once for
// all of them, as a simulated run does: of each key the rows are kept that some board shows. Nothing here is proved.
//
//     plain_load SEED SIZE [once]

use std::collections::btree_map::Entry as Slot;
use std::collections::{BTreeMap, VecDeque};
use std::rc::Rc;

pub const GROUP: usize = 4;
pub const WINDOW: usize = 4;
const SERVERS: usize = 4;
const CLIENTS: usize = 8;

pub type Key = u64;
pub type Pos = usize;
pub type Value = Rc<[u8]>;

// PCG XSH RR 64/32
struct Words {
    state: u64,
    increment: u64,
}

impl Words {
    fn new(seed: u64, stream: u64) -> Words {
        let increment = (stream << 1) | 1;
        let mut words = Words {
            state: seed.wrapping_add(increment),
            increment,
        };
        words.step();
        words
    }

    fn step(&mut self) {
        self.state = self
            .state
            .wrapping_mul(6364136223846793005)
            .wrapping_add(self.increment);
    }

    fn next(&mut self) -> u32 {
        let state = self.state;
        self.step();
        let rotation = (state >> 59) as u32;
        ((((state >> 18) ^ state) >> 27) as u32).rotate_right(rotation)
    }
}

enum Command {
    Get(Key),
    Put(Key, Value),
    Add(Key, u64),
    Scan(Key, Key, usize),
}

struct Program {
    commands: Vec<Command>,
    reads: bool,
}

fn program(number: usize, words: &mut Words) -> Program {
    let (x, y, z) = (words.next(), words.next(), words.next());
    let key = (y % 500) as u64;
    let put = || Command::Put(500 + (z % 500) as u64, format!("v{number}").into_bytes().into());
    let commands = match x % 4 {
        0 => vec![Command::Add(key, 1), Command::Add((z % 500) as u64, 1)],
        1 => vec![Command::Get(key), put()],
        2 => vec![Command::Scan(key, key + 9, 5), put()],
        _ => vec![Command::Get(500 + (z % 500) as u64)],
    };
    Program {
        commands,
        reads: x % 4 == 3,
    }
}

// What a program read and wrote.
#[derive(Default)]
struct Effects {
    points: Vec<Key>,
    spans: Vec<(Key, Key)>,
    writes: BTreeMap<Key, Value>,
}

#[allow(dead_code)]
enum Answer {
    Value(Option<Value>),
    Done,
    Sum(u64),
    Pairs(Vec<(Key, Value)>),
}

pub struct Entry {
    pub snap: Pos,
    pub points: Vec<Key>,
    pub spans: Vec<(Key, Key)>,
    pub writes: Vec<(Key, Value)>,
}

impl Entry {
    // Keys that it touches and that a map has, with what stands there, through `f`.
    fn each_touched<T>(&self, map: &BTreeMap<Key, T>, mut f: impl FnMut(Key, &T)) {
        for key in self.points.iter().chain(self.writes.iter().map(|w| &w.0)) {
            if let Some(found) = map.get(key) {
                f(*key, found);
            }
        }
        for span in &self.spans {
            for (key, found) in map.range(span.0..=span.1) {
                f(*key, found);
            }
        }
    }

    fn touches(&self, key: Key) -> bool {
        self.points.binary_search(&key).is_ok()
            || self.writes.iter().any(|w| w.0 == key)
            || self.spans.iter().any(|s| s.0 <= key && key <= s.1)
    }
}

#[derive(Clone, Copy, PartialEq)]
enum Verdict {
    Filler,
    Commit,
    Pre,
    Mate,
    Final,
}

struct Row {
    writer: Pos,
    value: Value,
}

// What is kept of a key: its newest row, and what a board needs of those before it.
trait Kept {
    fn first(row: Row) -> Self;
    // Adds a row. No board is below `least`.
    fn put(&mut self, row: Row, least: Pos);
    fn newest(&self) -> &Row;
    fn at(&self, board: Pos) -> Option<&Row>;
}

impl Kept for Row {
    fn first(row: Row) -> Row {
        row
    }

    fn put(&mut self, row: Row, _: Pos) {
        *self = row;
    }

    fn newest(&self) -> &Row {
        self
    }

    fn at(&self, _: Pos) -> Option<&Row> {
        Some(self)
    }
}

// The rows of a key, the newest last.
struct Rows(Vec<Row>);

impl Kept for Rows {
    fn first(row: Row) -> Rows {
        Rows(vec![row])
    }

    fn put(&mut self, row: Row, least: Pos) {
        let shown = self.0.iter().rposition(|it| it.writer <= least);
        self.0.drain(..shown.unwrap_or(0));
        self.0.push(row);
    }

    fn newest(&self) -> &Row {
        self.0.last().unwrap()
    }

    fn at(&self, board: Pos) -> Option<&Row> {
        self.0.iter().rev().find(|row| row.writer <= board)
    }
}

// The state up to a position, and the writers at the premeld base of the next group.
struct State<K> {
    board: Pos,
    least: Pos,
    rows: BTreeMap<Key, K>,
    base: Pos,
    base_writers: BTreeMap<Key, Pos>,
    past_base: VecDeque<(Pos, Vec<Key>)>,
    verdicts: Vec<Verdict>,
}

// The servers of a run: their boards, and the state of each or of all.
trait Servers {
    fn new() -> Self;
    fn board(&self, server: usize) -> Pos;
    fn run(&self, server: usize, program: &Program) -> (Effects, Vec<Answer>);
    fn publish(&mut self, server: usize, log: &[Option<Entry>]);
    // The verdicts, and how many rows there are.
    fn ended(self) -> (Vec<Verdict>, usize);
}

struct Apart(Vec<State<Row>>);

impl Servers for Apart {
    fn new() -> Apart {
        Apart((0..SERVERS).map(|_| State::new()).collect())
    }

    fn board(&self, server: usize) -> Pos {
        self.0[server].board
    }

    fn run(&self, server: usize, program: &Program) -> (Effects, Vec<Answer>) {
        self.0[server].run(self.0[server].board, program)
    }

    fn publish(&mut self, server: usize, log: &[Option<Entry>]) {
        self.0[server].judge(log);
    }

    fn ended(mut self) -> (Vec<Verdict>, usize) {
        let first = self.0.swap_remove(0);
        assert!(self.0.iter().all(|s| s.verdicts == first.verdicts));
        (first.verdicts, first.rows.len())
    }
}

struct Once {
    boards: [Pos; SERVERS],
    state: State<Rows>,
}

impl Servers for Once {
    fn new() -> Once {
        Once {
            boards: [0; SERVERS],
            state: State::new(),
        }
    }

    fn board(&self, server: usize) -> Pos {
        self.boards[server]
    }

    fn run(&self, server: usize, program: &Program) -> (Effects, Vec<Answer>) {
        self.state.run(self.boards[server], program)
    }

    fn publish(&mut self, server: usize, log: &[Option<Entry>]) {
        self.state.judge(log);
        self.boards[server] = log.len();
        self.state.least = *self.boards.iter().min().unwrap();
    }

    fn ended(self) -> (Vec<Verdict>, usize) {
        (self.state.verdicts, self.state.rows.len())
    }
}

impl<K: Kept> State<K> {
    fn new() -> State<K> {
        State {
            board: 0,
            least: 0,
            rows: BTreeMap::new(),
            base: 0,
            base_writers: BTreeMap::new(),
            past_base: VecDeque::new(),
            verdicts: Vec::new(),
        }
    }

    fn run(&self, board: Pos, program: &Program) -> (Effects, Vec<Answer>) {
        let mut effects = Effects::default();
        let mut answers = Vec::with_capacity(program.commands.len());
        for command in &program.commands {
            match command {
                Command::Get(key) => {
                    let seen = self.seen(board, &mut effects, *key);
                    answers.push(Answer::Value(seen));
                }
                Command::Put(key, value) => {
                    effects.writes.insert(*key, value.clone());
                    answers.push(Answer::Done);
                }
                Command::Add(key, n) => {
                    let before = match self.seen(board, &mut effects, *key) {
                        Some(value) => std::str::from_utf8(&value).unwrap().parse().unwrap(),
                        None => 0u64,
                    };
                    let sum = before + n;
                    effects.writes.insert(*key, sum.to_string().into_bytes().into());
                    answers.push(Answer::Sum(sum));
                }
                Command::Scan(lo, hi, n) => {
                    let pairs: Vec<(Key, Value)> = self
                        .rows
                        .range(lo..=hi)
                        .filter_map(|(key, kept)| Some((*key, kept.at(board)?.value.clone())))
                        .take(*n)
                        .collect();
                    let end = if pairs.len() == *n { pairs[n - 1].0 } else { *hi };
                    effects.spans.push((*lo, end));
                    answers.push(Answer::Pairs(pairs));
                }
            }
        }
        (effects, answers)
    }

    fn seen(&self, board: Pos, effects: &mut Effects, key: Key) -> Option<Value> {
        if let Some(value) = effects.writes.get(&key) {
            return Some(value.clone());
        }
        if let Err(at) = effects.points.binary_search(&key) {
            effects.points.insert(at, key);
        }
        Some(self.rows.get(&key)?.at(board)?.value.clone())
    }

    // Judges what was not judged yet.
    fn judge(&mut self, log: &[Option<Entry>]) {
        while self.board < log.len() {
            self.judge_group(&log[self.board..self.board + GROUP]);
        }
    }

    fn move_base(&mut self) {
        let groups = self.board / GROUP;
        self.base = GROUP * WINDOW * (groups / WINDOW).saturating_sub(1);
        while let Some((writer, _)) = self.past_base.front() {
            if *writer > self.base {
                break;
            }
            let (writer, keys) = self.past_base.pop_front().unwrap();
            for key in keys {
                self.base_writers.insert(key, writer);
            }
        }
    }

    fn judge_group(&mut self, group: &[Option<Entry>]) {
        self.move_base();
        let mut verdicts = [Verdict::Filler; GROUP];
        let mut joined: Vec<Key> = Vec::new();
        for (at, entry) in group.iter().enumerate() {
            let Some(entry) = entry else { continue };
            let mut old = false;
            entry.each_touched(&self.base_writers, |_, writer| old |= *writer > entry.snap);
            verdicts[at] = if old {
                Verdict::Pre
            } else if joined.iter().any(|key| entry.touches(*key)) {
                Verdict::Mate
            } else {
                joined.extend(entry.writes.iter().map(|w| w.0));
                Verdict::Commit
            };
        }
        let mut late = false;
        for (at, entry) in group.iter().enumerate() {
            if let (Some(entry), Verdict::Commit) = (entry, verdicts[at]) {
                let from = entry.snap.max(self.base);
                entry.each_touched(&self.rows, |_, kept| late |= kept.newest().writer > from);
            }
        }
        for (at, entry) in group.iter().enumerate() {
            if verdicts[at] == Verdict::Commit {
                if late {
                    verdicts[at] = Verdict::Final;
                } else if let Some(entry) = entry {
                    self.commit(self.board + at + 1, entry);
                }
            }
        }
        self.verdicts.extend(verdicts);
        self.board += GROUP;
    }

    fn commit(&mut self, writer: Pos, entry: &Entry) {
        for (key, value) in &entry.writes {
            let value = value.clone();
            let row = Row { writer, value };
            match self.rows.entry(*key) {
                Slot::Occupied(kept) => kept.into_mut().put(row, self.least),
                Slot::Vacant(place) => {
                    place.insert(K::first(row));
                }
            }
        }
        let keys = entry.writes.iter().map(|w| w.0).collect();
        self.past_base.push_back((writer, keys));
    }
}

#[derive(Default)]
struct Client {
    programs: VecDeque<Program>,
    begun: Option<(Pos, bool, Effects, Vec<Answer>)>,
}

// What a run leaves: the log, its verdicts, how many rows there are, and how many programs only read.
pub struct Ended {
    pub log: Vec<Option<Entry>>,
    verdicts: Vec<Verdict>,
    rows: usize,
    reads: usize,
}

pub fn run(seed: u64, size: usize) -> Ended {
    run_on::<Apart>(seed, size)
}

fn run_on<S: Servers>(seed: u64, size: usize) -> Ended {
    let mut clients: Vec<Client> = (0..CLIENTS).map(|_| Client::default()).collect();
    let mut drawn = Words::new(seed, 1);
    for number in 0..size {
        let program = program(number, &mut drawn);
        clients[number % CLIENTS].programs.push_back(program);
    }
    let mut servers = S::new();
    let mut log: Vec<Option<Entry>> = Vec::new();
    let mut told: Vec<Vec<Answer>> = Vec::with_capacity(size);
    let mut reads = 0;
    let mut round = 0usize;
    while clients.iter().any(|c| c.begun.is_some() || !c.programs.is_empty()) {
        for (at, client) in clients.iter_mut().enumerate() {
            let server = at % SERVERS;
            if round % (1 << server) == 0 && client.begun.is_none() {
                if let Some(program) = client.programs.pop_front() {
                    let (effects, answers) = servers.run(server, &program);
                    client.begun = Some((servers.board(server), program.reads, effects, answers));
                }
            }
        }
        for (at, client) in clients.iter_mut().enumerate() {
            if (round + 1) % (1 << (at % SERVERS)) != 0 {
                continue;
            }
            if let Some((snap, only_reads, effects, answers)) = client.begun.take() {
                told.push(answers);
                if only_reads {
                    reads += 1;
                } else {
                    log.push(Some(Entry {
                        snap,
                        points: effects.points,
                        spans: effects.spans,
                        writes: effects.writes.into_iter().collect(),
                    }));
                }
            }
        }
        while log.len() % GROUP != 0 {
            log.push(None);
        }
        for server in 0..SERVERS {
            if (round + 1) % (1 << server) == 0 {
                servers.publish(server, &log);
            }
        }
        round += 1;
    }
    for server in 0..SERVERS {
        servers.publish(server, &log);
    }
    let (verdicts, rows) = servers.ended();
    Ended {
        log,
        verdicts,
        rows,
        reads,
    }
}

#[allow(dead_code)]
fn main() {
    let words: Vec<String> = std::env::args().collect();
    let seed: u64 = words[1].parse().unwrap();
    let size: usize = words[2].parse().unwrap();
    let Ended {
        log,
        verdicts,
        rows,
        reads,
    } = match words.get(3) {
        Some(_) => run_on::<Once>(seed, size),
        None => run(seed, size),
    };
    let count = |verdict| verdicts.iter().filter(|v| **v == verdict).count();
    println!("load seed {seed} size {size}");
    println!("entries {} fillers {}", log.len(), count(Verdict::Filler));
    println!(
        "commit {} pre {} mate {} final {} read {reads}",
        count(Verdict::Commit),
        count(Verdict::Pre),
        count(Verdict::Mate),
        count(Verdict::Final)
    );
    println!("state {} rows {}", log.len(), rows);
}
