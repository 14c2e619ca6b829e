// The algorithm of the catalogue's table in plain Rust, with its nodes in one array of records and in six of numbers.
//
//     rustc -O -o /tmp/plain_nodes tools/table_time/plain_nodes.rs && /tmp/plain_nodes six && /tmp/plain_nodes one
//
// A line has: positions, recordings, and microseconds of processor time: for 250000 words that come, for the last that
// came to go, for the first to go, and for 200000 walks; and how many places these gave.
use std::env::args;

const END: u32 = u32::MAX;
const FIRST_BUCKET: u32 = 1 << 31;
const LENGTH: usize = 250_000;
const ROUNDS: u64 = 7;
const WALKS: usize = 200_000;

#[repr(C)]
struct Time {
    seconds: i64,
    nanoseconds: i64,
}

extern "C" {
    fn clock_gettime(clock: i32, time: *mut Time) -> i32;
}

const PROCESSOR_TIME: i32 = 2;

// The processor time that this process has used, in microseconds.
fn time_used() -> u64 {
    let mut time = Time { seconds: 0, nanoseconds: 0 };
    unsafe { clock_gettime(PROCESSOR_TIME, &mut time) };
    time.seconds as u64 * 1_000_000 + time.nanoseconds as u64 / 1000
}

fn words_of(id: u64) -> Vec<u32> {
    let mut state = id;
    (0..LENGTH)
        .map(|_| {
            state = state.wrapping_mul(6364136223846793005).wrapping_add(1442695040888963407);
            (state >> 32) as u32
        })
        .collect()
}

#[derive(Clone, Copy)]
struct Node {
    next: u32,
    prev: u32,
    behind: u32,
    word: u32,
    slot: u32,
    position: u32,
}

// Where nodes stand.
trait Nodes {
    fn new(positions: usize) -> Self;
    fn next(&self, node: u32) -> u32;
    fn prev(&self, node: u32) -> u32;
    fn behind(&self, node: u32) -> u32;
    fn word(&self, node: u32) -> u32;
    fn place(&self, node: u32) -> (u32, u32);
    fn link(&mut self, node: u32, next: u32);
    fn link_back(&mut self, node: u32, prev: u32);
    fn write(&mut self, node: u32, written: Node);
}

struct One(Vec<Node>);

impl Nodes for One {
    fn new(positions: usize) -> One {
        let node = |i| Node { next: i + 1, prev: END, behind: END, word: 0, slot: 0, position: 0 };
        One((0..positions as u32).map(node).collect())
    }
    fn next(&self, node: u32) -> u32 {
        self.0[node as usize].next
    }
    fn prev(&self, node: u32) -> u32 {
        self.0[node as usize].prev
    }
    fn behind(&self, node: u32) -> u32 {
        self.0[node as usize].behind
    }
    fn word(&self, node: u32) -> u32 {
        self.0[node as usize].word
    }
    fn place(&self, node: u32) -> (u32, u32) {
        (self.0[node as usize].slot, self.0[node as usize].position)
    }
    fn link(&mut self, node: u32, next: u32) {
        self.0[node as usize].next = next;
    }
    fn link_back(&mut self, node: u32, prev: u32) {
        self.0[node as usize].prev = prev;
    }
    fn write(&mut self, node: u32, written: Node) {
        self.0[node as usize] = written;
    }
}

struct Six {
    next: Vec<u32>,
    prev: Vec<u32>,
    behind: Vec<u32>,
    words: Vec<u32>,
    slots: Vec<u32>,
    positions: Vec<u32>,
}

impl Nodes for Six {
    fn new(positions: usize) -> Six {
        Six {
            next: (1..=positions as u32).collect(),
            prev: vec![END; positions],
            behind: vec![END; positions],
            words: vec![0; positions],
            slots: vec![0; positions],
            positions: vec![0; positions],
        }
    }
    fn next(&self, node: u32) -> u32 {
        self.next[node as usize]
    }
    fn prev(&self, node: u32) -> u32 {
        self.prev[node as usize]
    }
    fn behind(&self, node: u32) -> u32 {
        self.behind[node as usize]
    }
    fn word(&self, node: u32) -> u32 {
        self.words[node as usize]
    }
    fn place(&self, node: u32) -> (u32, u32) {
        (self.slots[node as usize], self.positions[node as usize])
    }
    fn link(&mut self, node: u32, next: u32) {
        self.next[node as usize] = next;
    }
    fn link_back(&mut self, node: u32, prev: u32) {
        self.prev[node as usize] = prev;
    }
    fn write(&mut self, node: u32, written: Node) {
        let at = node as usize;
        self.next[at] = written.next;
        self.prev[at] = written.prev;
        self.behind[at] = written.behind;
        self.words[at] = written.word;
        self.slots[at] = written.slot;
        self.positions[at] = written.position;
    }
}

struct Table<N> {
    nodes: N,
    buckets: Vec<u32>,
    songs: Vec<u32>,
    shift: u32,
    free: u32,
}

impl<N: Nodes> Table<N> {
    fn new(positions: usize) -> Table<N> {
        let bits = (8..20).find(|bits| positions <= 1 << bits).unwrap_or(20);
        let (buckets, songs) = (vec![END; 1 << bits], vec![END; 2000]);
        Table { nodes: N::new(positions), buckets, songs, shift: 32 - bits, free: 0 }
    }

    fn bucket(&self, word: u32) -> u32 {
        word.wrapping_mul(2654435761) >> self.shift
    }

    fn insert(&mut self, slot: u32, words: &[u32]) {
        let mut behind = END;
        for (position, &word) in words.iter().enumerate().rev() {
            let (node, bucket) = (self.free, self.bucket(word));
            self.free = self.nodes.next(node);
            let next = self.buckets[bucket as usize];
            if next != END {
                self.nodes.link_back(next, node);
            }
            let prev = FIRST_BUCKET + bucket;
            self.nodes.write(node, Node { next, prev, behind, word, slot, position: position as u32 });
            self.buckets[bucket as usize] = node;
            behind = node;
        }
        self.songs[slot as usize] = behind;
    }

    fn remove(&mut self, slot: u32) {
        let mut node = self.songs[slot as usize];
        while node != END {
            let (next, prev) = (self.nodes.next(node), self.nodes.prev(node));
            if next != END {
                self.nodes.link_back(next, prev);
            }
            if prev >= FIRST_BUCKET {
                self.buckets[(prev - FIRST_BUCKET) as usize] = next;
            } else {
                self.nodes.link(prev, next);
            }
            self.nodes.link(node, self.free);
            self.free = node;
            node = self.nodes.behind(node);
        }
        self.songs[slot as usize] = END;
    }

    fn count(&self, word: u32) -> u64 {
        let mut count = 0;
        let mut node = self.buckets[self.bucket(word) as usize];
        while node != END {
            if self.nodes.word(node) == word {
                let (slot, position) = self.nodes.place(node);
                count += 1 + (slot as u64 + position as u64) / (1 << 31);
            }
            node = self.nodes.next(node);
        }
        count
    }
}

fn timed(least: &mut u64, work: impl FnOnce()) {
    let start = time_used();
    work();
    *least = time_used().saturating_sub(start).min(*least);
}

fn times<N: Nodes>(positions: usize, songs: u32) {
    let mut table: Table<N> = Table::new(positions);
    for id in 1..songs {
        table.insert(id, &words_of(id as u64));
    }
    let newest = words_of(1001);
    let (mut came, mut last, mut first, mut walks, mut found) = (u64::MAX, u64::MAX, u64::MAX, u64::MAX, 0);
    for round in 0..ROUNDS {
        timed(&mut came, || table.insert(1001, &newest));
        timed(&mut walks, || found = newest[..WALKS].iter().map(|&word| table.count(word)).sum());
        timed(&mut last, || table.remove(1001));
        let oldest = (round % 3 + 1) as u32;
        timed(&mut first, || table.remove(oldest));
        table.insert(oldest, &words_of(oldest as u64));
    }
    println!("times {positions} {} {came} {last} {first} {walks} {found}", songs - 1);
}

fn main() {
    let six = args().nth(1).as_deref() == Some("six");
    for (positions, songs) in [(1_000_000, 4), (16_777_216, 67)] {
        if six {
            times::<Six>(positions, songs);
        } else {
            times::<One>(positions, songs);
        }
    }
}
