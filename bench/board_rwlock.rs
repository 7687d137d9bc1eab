//! Does what `bm_board_bench` does, in plain Rust: a table behind an `Arc` in an `RwLock` of std.
//!
//! usage: board_rwlock looks READERS LOOKS BUCKETS, or board_rwlock batches BATCHES OCTETS

use std::sync::{Arc, RwLock};
use std::thread;

/// A server that had a bucket, and the moment at which it lost it.
#[derive(Clone, Copy)]
struct Past {
    server: u16,
    stamp: u64,
}

#[derive(Clone, Copy)]
struct Entry {
    cur: u16,
    prev: Option<Past>,
    older: Option<Past>,
}

#[derive(Clone)]
struct Table {
    version: u32,
    clock: u64,
    entries: Vec<Entry>,
}

impl Table {
    fn opening(buckets: usize) -> Table {
        let entries = (0..buckets)
            .map(|bucket| Entry { cur: bucket as u16 % 2 + 1, prev: None, older: None })
            .collect();
        Table { version: 0, clock: 0, entries }
    }

    /// The table after one move, as a copy.
    fn moved(&self, bucket: usize, to: u16, moment: u64, clock: u64) -> Table {
        let mut next = self.clone();
        let Entry { cur, prev, .. } = self.entries[bucket];
        next.entries[bucket] = Entry { cur: to, prev: Some(Past { server: cur, stamp: moment }), older: prev };
        next.version += 1;
        next.clock = clock;
        next
    }
}

type Board = RwLock<Arc<Table>>;

fn look(board: &Board) -> Arc<Table> {
    Arc::clone(&board.read().unwrap())
}

fn watch(board: &Board, looks: u32) -> u64 {
    let (mut seen, mut last) = (0, 0);
    for _ in 0..looks {
        let table = look(board);
        let moved_at = table.entries[0].prev.map_or(0, |past| past.stamp);
        if table.version >= last && moved_at <= 4_096 && table.clock >= u64::from(table.version) {
            seen += 1;
        }
        last = table.version;
    }
    seen
}

fn post_all(board: &Board) {
    for number in 0..4_096u64 {
        let to = if number % 2 == 0 { 2 } else { 1 };
        let next = Arc::new(look(board).moved(0, to, number, number + 1));
        *board.write().unwrap() = next;
    }
}

fn looks(readers: u32, looks: u32, buckets: usize) -> u64 {
    let board = RwLock::new(Arc::new(Table::opening(buckets)));
    thread::scope(|scope| {
        let all: Vec<_> = (0..readers).map(|_| scope.spawn(|| watch(&board, looks))).collect();
        post_all(&board);
        all.into_iter().map(|reader| reader.join().unwrap()).sum()
    })
}

struct Item<'a> {
    packet: u32,
    moment: u64,
    flow: (u32, u32, u16, u16),
    inner: &'a [u8],
}

struct Steered {
    _packet: u32,
    _clock: u64,
    octets: Vec<u8>,
}

enum What {
    Switch(u16, u32),
    Steer(u32, u16),
}

struct Mux {
    id: u16,
    version: u32,
    clock: u64,
    log: Vec<(u64, What)>,
}

fn bucket_of(flow: (u32, u32, u16, u16), buckets: usize) -> usize {
    let mut octets = [0; 13];
    octets[..4].copy_from_slice(&flow.0.to_be_bytes());
    octets[4..8].copy_from_slice(&flow.1.to_be_bytes());
    octets[8..10].copy_from_slice(&flow.2.to_be_bytes());
    octets[10..12].copy_from_slice(&flow.3.to_be_bytes());
    octets[12] = 6;
    let hash = octets
        .iter()
        .fold(0xcbf2_9ce4_8422_2325u64, |hash, octet| (hash ^ u64::from(*octet)).wrapping_mul(0x100_0000_01b3));
    (hash % buckets as u64) as usize
}

/// The octets of the carrier header.
const HEADER: usize = 56;

/// The carrier header, with its checksum.
fn header(mux: u16, version: u32, entry: &Entry, total: u16) -> [u8; HEADER] {
    let mut header = [0; HEADER];
    header[0] = 0x4e;
    header[2..4].copy_from_slice(&total.to_be_bytes());
    header[6] = 0x40;
    header[8..10].copy_from_slice(&[0x40, 4]);
    header[12..16].copy_from_slice(&(0xac1f_0000 + u32::from(mux)).to_be_bytes());
    header[16..20].copy_from_slice(&(0xac10_0000 + u32::from(entry.cur)).to_be_bytes());
    header[20..22].copy_from_slice(&[0x9e, 0x24]);
    for (past, at) in [(entry.prev, 24), (entry.older, 36)] {
        if let Some(past) = past {
            header[23] += 1;
            header[at..at + 4].copy_from_slice(&(0xac10_0000 + u32::from(past.server)).to_be_bytes());
            header[at + 4..at + 12].copy_from_slice(&past.stamp.to_be_bytes());
        }
    }
    header[48..52].copy_from_slice(&version.to_be_bytes());
    header[52..54].copy_from_slice(&mux.to_be_bytes());
    let sum: u32 = header.chunks(2).map(|pair| u32::from(pair[0]) << 8 | u32::from(pair[1])).sum();
    let sum = (sum & 0xffff) + (sum >> 16);
    let sum = !((sum & 0xffff) + (sum >> 16)) as u16;
    header[10..12].copy_from_slice(&sum.to_be_bytes());
    header
}

impl Mux {
    fn batch(&mut self, board: &Board, items: &[Item], out: &mut Vec<Steered>) {
        let table = look(board);
        if self.version < table.version {
            self.version = table.version;
            self.clock = self.clock.max(table.clock) + 1;
            self.log.push((self.clock, What::Switch(self.id, self.version)));
        }
        for item in items {
            let entry = &table.entries[bucket_of(item.flow, table.entries.len())];
            let total = HEADER + item.inner.len();
            let mut octets = Vec::with_capacity(total);
            octets.extend_from_slice(&header(self.id, table.version, entry, total as u16));
            octets.extend_from_slice(item.inner);
            self.clock = self.clock.max(item.moment) + 1;
            self.log.push((self.clock, What::Steer(item.packet, self.id)));
            out.push(Steered { _packet: item.packet, _clock: self.clock, octets });
        }
    }
}

fn batches(batches: u32, octets: usize) -> u64 {
    let board = RwLock::new(Arc::new(Table::opening(65_536)));
    let inner = vec![0; octets];
    let items: Vec<_> = (0..256u16)
        .map(|packet| Item {
            packet: u32::from(packet),
            moment: 0,
            flow: (0x0a00_0001, 0xc000_0201, packet, 80),
            inner: &inner,
        })
        .collect();
    let mut mux = Mux { id: 0, version: 0, clock: 0, log: Vec::new() };
    let mut out = Vec::with_capacity(256);
    let mut sent = 0;
    for _ in 0..batches {
        mux.batch(&board, &items, &mut out);
        sent += out.iter().filter(|steered| steered.octets.len() > HEADER).count() as u64;
        out.clear();
    }
    let steers = mux.log.iter().filter(|(_, what)| matches!(what, What::Steer(packet, 0) if *packet < 256)).count();
    assert!(steers as u64 == sent && !mux.log.iter().any(|(_, what)| matches!(what, What::Switch(1, 7))));
    sent
}

fn main() {
    let words: Vec<String> = std::env::args().skip(1).collect();
    let number = |at: usize| words[at].parse::<u32>().unwrap();
    match words[0].as_str() {
        "looks" => {
            let seen = looks(number(1), number(2), number(3) as usize);
            println!("{} readers, {seen} looks, 4096 posts", number(1));
        }
        _ => println!("{} batches, {} packets", number(1), batches(number(1), number(2) as usize)),
    }
}
