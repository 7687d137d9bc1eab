//! Does what `beamer replay` does, in plain Rust that is sparing of instructions: replays a capture of the classic form, and prints the
//! report of `beamer replay`, octet for octet. It goes over the file once, hashes a flow once for each packet, gives each flow a number,
//! and keeps no events: it writes the line of each as it happens, and keeps the ends of each record. As in `beamer replay` each copy that
//! arrives has octets: a carrier header is put before the packet, the server reads both back, and a forward turns the header.
//!
//! usage: peer_replay CAPTURE [SCRIPT]
//! SCRIPT may have the keys `servers`, `buckets`, `muxes`, `shards`, `capacity` and `timeout_s`, tables `[[fault]]`, and tables
//! `[[command]]` that add or drain a server, or move a bucket. A line has one key, or the header of one table.

use std::cmp::Reverse;
use std::collections::BinaryHeap;
use std::io::{self, Write};
use std::{env, fs, process};

const FIN: u8 = 0x01;
const SYN: u8 = 0x02;
const RST: u8 = 0x04;
const ACK: u8 = 0x10;
const WINDOW: u32 = 65_535;
/// The service that is steered: 192.0.2.1 port 80.
const SERVICE: (u32, u16) = (0xC000_0201, 80);
/// One more than the number of servers that there may be, since they count from 1.
const SERVERS: usize = 1_025;
/// Where a moment stands, this says that it never comes.
const NEVER: u64 = u64::MAX;
/// Where a server's number stands, this says that there is none.
const NONE: u16 = 0;

// SCRIPTS

struct Setting {
    servers: Vec<u16>,
    buckets: u32,
    muxes: u16,
    shards: u64,
    capacity: u32,
    timeout: u64,
}

/// What becomes of a sending: how many copies it has, and how late they are.
#[derive(Clone, Copy)]
struct Fate {
    copies: u8,
    delay: u64,
}

/// A command that changes the table.
enum Command {
    Add(u16),
    Drain(u16),
    Move(u32, u16),
}

struct Script {
    setting: Setting,
    /// By packet: the fates of its direct and of its chained copies, where a row of the script names them.
    fates: Vec<[Option<Fate>; 2]>,
    commands: Vec<(u64, Command)>,
}

/// The values of a table's keys; those that it lacks are 0.
#[derive(Default)]
struct Values<'a> {
    packet: u64,
    hop: &'a [u8],
    copies: u64,
    delay: u64,
    at: u64,
    todo: &'a [u8],
    server: u64,
    bucket: u64,
}

/// The octets of a script, and the place up to which they are read.
struct Reader<'a> {
    octets: &'a [u8],
    at: usize,
}

impl<'a> Reader<'a> {
    fn next(&self) -> Option<u8> {
        self.octets.get(self.at).copied()
    }

    fn while_next(&mut self, goes_on: impl Fn(u8) -> bool) -> &'a [u8] {
        let begin = self.at;
        while self.next().is_some_and(&goes_on) {
            self.at += 1;
        }
        &self.octets[begin..self.at]
    }

    /// Passes over all of these octets that come next.
    fn pass(&mut self, passed: &[u8]) {
        self.while_next(|octet| passed.contains(&octet));
    }

    fn word(&mut self) -> &'a [u8] {
        self.while_next(|octet| octet.is_ascii_lowercase() || octet == b'_')
    }

    fn number(&mut self) -> u64 {
        let digits = self.while_next(|octet| octet.is_ascii_digit() || octet == b'_');
        let digits = digits.iter().filter(|octet| **octet != b'_');
        digits.fold(0, |number, digit| number * 10 + u64::from(digit - b'0'))
    }

    fn text(&mut self) -> &'a [u8] {
        self.pass(b"\"");
        let text = self.word();
        self.pass(b"\"");
        text
    }

    fn numbers(&mut self) -> Vec<u16> {
        let mut numbers = Vec::new();
        self.pass(b"[ ");
        while self.next().is_some_and(|octet| octet.is_ascii_digit()) {
            numbers.push(self.number() as u16);
            self.pass(b", ");
        }
        self.pass(b"]");
        numbers
    }

    /// A key, after which its value comes; or None where a table or nothing comes.
    fn key(&mut self) -> Option<&'a [u8]> {
        self.pass(b" \n");
        let key = self.word();
        self.pass(b" =");
        (!key.is_empty()).then_some(key)
    }

    /// The name of the table that begins here, if one does.
    fn header(&mut self) -> Option<&'a [u8]> {
        self.next()?;
        self.pass(b"[");
        let name = self.word();
        self.pass(b"]");
        Some(name)
    }

    fn setting(&mut self) -> Option<Setting> {
        let mut setting = Setting::plain();
        while let Some(key) = self.key() {
            match key {
                b"servers" => setting.servers = self.numbers(),
                b"buckets" => setting.buckets = self.number() as u32,
                b"muxes" => setting.muxes = self.number() as u16,
                b"shards" => setting.shards = self.number(),
                b"capacity" => setting.capacity = self.number() as u32,
                b"timeout_s" => setting.timeout = self.number() * 1_000_000_000,
                _ => return None,
            }
        }
        Some(setting)
    }

    fn values(&mut self) -> Option<Values<'a>> {
        let mut values = Values::default();
        while let Some(key) = self.key() {
            match key {
                b"packet" => values.packet = self.number(),
                b"hop" => values.hop = self.text(),
                b"copies" => values.copies = self.number(),
                b"delay_ns" => values.delay = self.number(),
                b"at_ns" => values.at = self.number(),
                b"do" => values.todo = self.text(),
                b"server" => values.server = self.number(),
                b"bucket" => values.bucket = self.number(),
                _ => return None,
            }
        }
        Some(values)
    }
}

impl Setting {
    fn plain() -> Setting {
        let (servers, timeout) = (vec![1, 2], 240_000_000_000);
        Setting { servers, buckets: 8, muxes: 1, shards: 4, capacity: 4_096, timeout }
    }
}

impl Script {
    fn read(octets: &[u8]) -> Option<Script> {
        let mut reader = Reader { octets, at: 0 };
        let mut script = Script { setting: reader.setting()?, fates: Vec::new(), commands: Vec::new() };
        while let Some(table) = reader.header() {
            let values = reader.values()?;
            match table {
                b"fault" => script.add_fate(&values)?,
                b"command" => script.add_command(&values)?,
                _ => return None,
            }
        }
        Some(script)
    }

    /// Of two rows with one packet and hop the first counts.
    fn add_fate(&mut self, values: &Values) -> Option<()> {
        let hop = [&b"direct"[..], b"chained"].iter().position(|hop| *hop == values.hop)?;
        let packet = values.packet as usize;
        if self.fates.len() <= packet {
            self.fates.resize(packet + 1, [None, None]);
        }
        self.fates[packet][hop].get_or_insert(Fate { copies: values.copies as u8, delay: values.delay });
        Some(())
    }

    fn add_command(&mut self, values: &Values) -> Option<()> {
        let server = values.server as u16;
        let command = match values.todo {
            b"add" => Command::Add(server),
            b"drain" => Command::Drain(server),
            b"move" => Command::Move(values.bucket as u32, server),
            _ => return None,
        };
        self.commands.push((values.at, command));
        Some(())
    }
}

// TABLES

/// A server that had a bucket, and the moment at which it lost it.
#[derive(Clone, Copy)]
struct Past {
    server: u16,
    stamp: u64,
}

impl Past {
    const NONE: Past = Past { server: NONE, stamp: 0 };
}

/// A bucket: the server that has it, the two that had it before, and how often it moved.
#[derive(Clone, Copy)]
struct Entry {
    server: u16,
    prev: Past,
    older: Past,
    moves: u32,
}

/// A change of the table: its moment, and the new server of each bucket that moves.
struct Change {
    moment: u64,
    moves: Vec<(u32, u16)>,
}

/// Which server of a version has each bucket, and which servers are active, by their numbers.
struct Controller {
    owners: Vec<u16>,
    active: Vec<bool>,
}

impl Controller {
    fn new(setting: &Setting) -> Controller {
        let mut active = vec![false; SERVERS];
        for server in &setting.servers {
            active[usize::from(*server)] = true;
        }
        Controller { owners: opening(setting).collect(), active }
    }

    /// The moves that a command makes.
    fn carry_out(&mut self, command: &Command) -> Vec<(u32, u16)> {
        let moves = match *command {
            Command::Move(bucket, server) => vec![(bucket, server)],
            Command::Add(server) => self.rebalance(server, true),
            Command::Drain(server) => self.rebalance(server, false),
        };
        for (bucket, server) in &moves {
            self.owners[*bucket as usize] = *server;
        }
        moves
    }

    /// Each server gives its highest buckets above its quota; they go to the first servers below theirs.
    fn rebalance(&mut self, server: u16, is_active: bool) -> Vec<(u32, u16)> {
        self.active[usize::from(server)] = is_active;
        let mut quotas = self.quotas();
        let mut moves = Vec::new();
        for (bucket, owner) in self.owners.iter().enumerate() {
            let quota = &mut quotas[usize::from(*owner)];
            *quota -= 1;
            if *quota < 0 {
                *quota = 0;
                moves.push((bucket as u32, NONE));
            }
        }
        let takers = (1..).zip(&quotas[1..]).flat_map(|(server, room)| (0..*room).map(move |_| server));
        for (given, taker) in moves.iter_mut().zip(takers) {
            given.1 = taker;
        }
        moves
    }

    /// How many buckets each server is to have: the first ones have one more, if they can't be shared evenly.
    fn quotas(&self) -> Vec<i32> {
        let count = self.active.iter().filter(|is_active| **is_active).count();
        let (each, mut more) = (self.owners.len() / count, self.owners.len() % count);
        let quota = |is_active: &bool| {
            let one_more = *is_active && more > 0;
            more -= usize::from(one_more);
            if *is_active { each as i32 + i32::from(one_more) } else { 0 }
        };
        self.active.iter().map(quota).collect()
    }
}

/// The server of each bucket before all changes.
fn opening(setting: &Setting) -> impl Iterator<Item = u16> + '_ {
    setting.servers.iter().copied().cycle().take(setting.buckets as usize)
}

/// The table of all muxes, which switch at the same moments, and the changes that are still to come.
struct Table {
    entries: Vec<Entry>,
    version: u32,
    changes: Vec<Change>,
    /// The moment of the next change.
    next: u64,
}

impl Table {
    fn new(setting: &Setting, commands: &[(u64, Command)]) -> Table {
        let entry = |server| Entry { server, prev: Past::NONE, older: Past::NONE, moves: 0 };
        let entries = opening(setting).map(entry).collect();
        let mut controller = Controller::new(setting);
        let change = |(moment, command): &(u64, Command)| Change { moment: *moment, moves: controller.carry_out(command) };
        let changes: Vec<Change> = commands.iter().map(change).collect();
        let next = changes.first().map_or(NEVER, |change| change.moment);
        Table { entries, version: 0, changes, next }
    }

    /// How many of the changes that come next have their moment.
    fn count_next(&self) -> u32 {
        let rest = &self.changes[self.version as usize..];
        rest.iter().take_while(|change| change.moment == self.next).count() as u32
    }

    fn apply_next(&mut self) {
        let change = &self.changes[self.version as usize];
        for (bucket, server) in &change.moves {
            let entry = &mut self.entries[*bucket as usize];
            entry.older = entry.prev;
            entry.prev = Past { server: entry.server, stamp: change.moment };
            entry.server = *server;
            entry.moves += 1;
        }
        self.version += 1;
        self.next = self.changes.get(self.version as usize).map_or(NEVER, |change| change.moment);
    }
}

// PACKETS

#[derive(Clone, Copy, PartialEq, Eq)]
struct Flow {
    src: u32,
    dst: u32,
    ports: u32,
}

#[derive(Clone, Copy)]
struct Segment {
    flow: Flow,
    seq: u32,
    len: u32,
    flags: u8,
}

impl Flow {
    /// FNV-1a of 64 bits over the addresses, the ports and the protocol.
    fn hash(&self) -> u64 {
        let step = |hash: u64, octet: u8| (hash ^ u64::from(octet)).wrapping_mul(0x100_0000_01b3);
        let numbers = [self.src, self.dst, self.ports];
        let octets = numbers.iter().flat_map(|number| number.to_be_bytes());
        step(octets.fold(0xcbf2_9ce4_8422_2325, step), 6)
    }

    fn sport(&self) -> u16 {
        (self.ports >> 16) as u16
    }

    fn dport(&self) -> u16 {
        self.ports as u16
    }
}

impl Segment {
    fn has(&self, flag: u8) -> bool {
        self.flags & flag != 0
    }

    fn is_opening(&self) -> bool {
        self.flags & (SYN | ACK | RST | FIN) == SYN
    }
}

fn number(octets: &[u8], at: usize) -> u32 {
    u32::from_be_bytes(octets[at..at + 4].try_into().unwrap())
}

fn short_number(octets: &[u8], at: usize) -> u16 {
    u16::from_be_bytes(octets[at..at + 2].try_into().unwrap())
}

/// Why a record isn't steered.
#[derive(Clone, Copy)]
enum Reason {
    ShortLink,
    NotIpv4,
    ShortIp,
    NotVersion4,
    BadHeaderLength,
    BadTotalLength,
    Fragment,
    NotTcp,
    ShortTcp,
    BadOffset,
    OtherDestination,
    TooLong,
}

impl Reason {
    fn text(self) -> &'static str {
        match self {
            Reason::ShortLink => "short-link",
            Reason::NotIpv4 => "not-ipv4",
            Reason::ShortIp => "short-ip",
            Reason::NotVersion4 => "not-version-4",
            Reason::BadHeaderLength => "bad-header-length",
            Reason::BadTotalLength => "bad-total-length",
            Reason::Fragment => "fragment",
            Reason::NotTcp => "not-tcp",
            Reason::ShortTcp => "short-tcp",
            Reason::BadOffset => "bad-offset",
            Reason::OtherDestination => "other-destination",
            Reason::TooLong => "too-long",
        }
    }
}

/// What follows the type 0800 of an Ethernet frame, after at most two tags.
fn ethernet_part(octets: &[u8]) -> Result<&[u8], Reason> {
    let mut at = 12;
    for tags in 0..3 {
        if octets.len() < at + 2 {
            return Err(Reason::ShortLink);
        }
        match short_number(octets, at) {
            0x8100 | 0x88a8 if tags < 2 => at += 4,
            0x0800 => return Ok(&octets[at + 2..]),
            _ => return Err(Reason::NotIpv4),
        }
    }
    Err(Reason::NotIpv4)
}

/// What follows the header of a Linux cooked frame, whose protocol is at this place.
fn cooked_part(octets: &[u8], header: usize, place: usize) -> Result<&[u8], Reason> {
    if octets.len() < header {
        return Err(Reason::ShortLink);
    }
    if short_number(octets, place) == 0x0800 { Ok(&octets[header..]) } else { Err(Reason::NotIpv4) }
}

fn network_part(link: u32, octets: &[u8]) -> Result<&[u8], Reason> {
    match link {
        1 => ethernet_part(octets),
        101 if octets.is_empty() => Err(Reason::ShortLink),
        101 if octets[0] >> 4 != 4 => Err(Reason::NotIpv4),
        113 => cooked_part(octets, 16, 14),
        276 => cooked_part(octets, 20, 0),
        _ => Ok(octets),
    }
}

/// The packet of an IPv4 header, the place of its payload, and the payload's stated length.
fn read_ipv4(part: &[u8]) -> Result<(&[u8], usize, usize), Reason> {
    if part.len() < 20 {
        return Err(Reason::ShortIp);
    }
    if part[0] >> 4 != 4 {
        return Err(Reason::NotVersion4);
    }
    let header = usize::from(part[0] & 15) * 4;
    if header < 20 {
        return Err(Reason::BadHeaderLength);
    }
    if part.len() < header {
        return Err(Reason::ShortIp);
    }
    let total = usize::from(short_number(part, 2));
    if total != 0 && total < header {
        return Err(Reason::BadTotalLength);
    }
    let stated = if total == 0 { part.len() } else { total };
    Ok((&part[..stated.min(part.len())], header, stated - header))
}

/// The segment of an IPv4 packet, and the packet without what follows it, or why there is none.
#[inline(always)]
fn read_packet(part: &[u8]) -> Result<(Segment, &[u8]), Reason> {
    let (packet, header, stated) = read_ipv4(part)?;
    if short_number(packet, 6) & 0x3fff != 0 {
        return Err(Reason::Fragment);
    }
    if packet[9] != 6 {
        return Err(Reason::NotTcp);
    }
    let Some(payload) = packet[header..].first_chunk::<20>() else { return Err(Reason::ShortTcp) };
    let offset = usize::from(payload[12] >> 4) * 4;
    if offset < 20 || stated < offset {
        return Err(Reason::BadOffset);
    }
    let flow = Flow { src: number(packet, 12), dst: number(packet, 16), ports: number(payload, 0) };
    let flags = payload[13];
    let len = (stated - offset) as u32 + u32::from(flags & SYN != 0) + u32::from(flags & FIN != 0);
    Ok((Segment { flow, seq: number(payload, 4), len, flags }, packet))
}

/// The segment that a record's octets hold, and its packet, or why it isn't steered.
fn classify(link: u32, octets: &[u8]) -> Result<(Segment, &[u8]), Reason> {
    let (segment, packet) = read_packet(network_part(link, octets)?)?;
    if (segment.flow.dst, segment.flow.dport()) != SERVICE {
        return Err(Reason::OtherDestination);
    }
    if packet.len() > 65_479 {
        return Err(Reason::TooLong);
    }
    Ok((segment, packet))
}

/// A capture of the classic form, and how its numbers are read.
struct Capture<'a> {
    octets: &'a [u8],
    is_swapped: bool,
    unit: u64,
    link: u32,
}

impl<'a> Capture<'a> {
    fn open(octets: &[u8]) -> Option<Capture<'_>> {
        if octets.len() < 24 {
            return None;
        }
        let (is_swapped, unit) = match number(octets, 0) {
            0xa1b2_c3d4 => (false, 1_000),
            0xa1b2_3c4d => (false, 1),
            0xd4c3_b2a1 => (true, 1_000),
            0x4d3c_b2a1 => (true, 1),
            _ => return None,
        };
        let mut capture = Capture { octets, is_swapped, unit, link: 0 };
        capture.link = capture.number(octets, 20) & 0xffff;
        [1, 101, 113, 228, 276].contains(&capture.link).then_some(capture)
    }

    fn number(&self, octets: &[u8], at: usize) -> u32 {
        let read = number(octets, at);
        if self.is_swapped { read.swap_bytes() } else { read }
    }

    /// Passes the captured time and the octets of each record on, and says whether the last is cut.
    fn each(&self, mut take: impl FnMut(u64, &'a [u8]) -> io::Result<()>) -> io::Result<bool> {
        let mut rest = &self.octets[24..];
        while let Some((header, after)) = rest.split_first_chunk::<16>() {
            let Some((octets, after)) = after.split_at_checked(self.number(header, 8) as usize) else { return Ok(true) };
            let time = u64::from(self.number(header, 0)) * 1_000_000_000 + u64::from(self.number(header, 4)) * self.unit;
            take(time, octets)?;
            rest = after;
        }
        Ok(!rest.is_empty())
    }
}

// CARRIERS

/// How many octets and how many words of 32 bits a carrier header has.
const HEADER: usize = 56;
const WORDS: usize = HEADER / 4;
const MUX_ADDR: u32 = 0xac1f_0000;
const SERVER_ADDR: u32 = 0xac10_0000;

#[derive(Clone, Copy, PartialEq, Eq)]
enum Hop {
    Direct,
    Chained,
    Twice,
}

/// What a carrier header says.
#[derive(Clone, Copy)]
struct Tag {
    hop: Hop,
    mux: u16,
    version: u32,
    dest: u16,
    prev: Past,
    older: Past,
}

/// The address of a server, or zero.
fn address_of(server: u16) -> u32 {
    if server == NONE { 0 } else { SERVER_ADDR + u32::from(server) }
}

/// The server of an address, if it is one's.
fn server_of(address: u32) -> Option<u16> {
    let number = address.wrapping_sub(SERVER_ADDR);
    (1..SERVERS as u32).contains(&number).then_some(number as u16)
}

/// The checksum of RFC 1071.
fn checksum(words: &[u32; WORDS]) -> u16 {
    let sum: u64 = words.iter().map(|word| u64::from(*word)).sum();
    let sum = (sum >> 32) + (sum & 0xffff_ffff);
    let sum = (sum >> 32) + (sum >> 16 & 0xffff) + (sum & 0xffff);
    let sum = (sum >> 16) + (sum & 0xffff);
    !((sum >> 16) + sum) as u16
}

impl Past {
    fn words(&self) -> [u32; 3] {
        [address_of(self.server), (self.stamp >> 32) as u32, self.stamp as u32]
    }

    /// The server and the stamp of these words, which are zero where none is there.
    fn read(words: &[u32], is_there: bool) -> Option<Past> {
        if is_there {
            return Some(Past { server: server_of(words[0])?, stamp: u64::from(words[1]) << 32 | u64::from(words[2]) });
        }
        (words[0] | words[1] | words[2] == 0).then_some(Past::NONE)
    }
}

impl Tag {
    /// The words of the header before a packet, of this length with the header.
    fn words(&self, total: u16) -> [u32; WORDS] {
        let count = u32::from(self.prev.server != NONE) + u32::from(self.older.server != NONE);
        let ([prev, prev_high, prev_low], [older, older_high, older_low]) = (self.prev.words(), self.older.words());
        let mut words = [
            0x4e00_0000 | u32::from(total),
            0x0000_4000,
            0x4004_0000,
            MUX_ADDR + u32::from(self.mux),
            address_of(self.dest),
            0x9e24_0000 | (self.hop as u32) << 8 | count,
            prev,
            prev_high,
            prev_low,
            older,
            older_high,
            older_low,
            self.version,
            u32::from(self.mux) << 16,
        ];
        words[2] |= u32::from(checksum(&words));
        words
    }

    /// The tag of these words, if they are its header.
    fn read(words: &[u32; WORDS], total: usize) -> Option<Tag> {
        let fixed = [words[0], words[1], words[2] >> 16, words[5] >> 16];
        if fixed != [0x4e00_0000 | total as u32, 0x4000, 0x4004, 0x9e24] || checksum(words) != 0 {
            return None;
        }
        let mux = words[3].wrapping_sub(MUX_ADDR);
        if mux >= 64 || words[13] != mux << 16 {
            return None;
        }
        let hop = match words[5] >> 8 & 0xff {
            0 => Hop::Direct,
            1 => Hop::Chained,
            2 => Hop::Twice,
            _ => return None,
        };
        let count = words[5] & 0xff;
        let (prev, older) = (Past::read(&words[6..9], count > 0)?, Past::read(&words[9..12], count > 1)?);
        let tag = Tag { hop, mux: mux as u16, version: words[12], dest: server_of(words[4])?, prev, older };
        (count <= 2 && tag.goes_right()).then_some(tag)
    }

    /// Whether its servers are different ones, and the copy goes to that of its hop.
    fn goes_right(&self) -> bool {
        let is_older_right = self.older.server == NONE || self.older.server != self.prev.server;
        is_older_right
            && match self.hop {
                Hop::Direct => self.prev.server != self.dest,
                Hop::Chained => self.prev.server == self.dest,
                Hop::Twice => self.older.server == self.dest,
            }
    }

    /// The hop of a copy that is forwarded, and the server to which it goes, with the moment at which that one lost the bucket.
    fn onward(&self) -> Option<(Hop, Past)> {
        let (hop, past) = match self.hop {
            Hop::Direct => (Hop::Chained, self.prev),
            Hop::Chained => (Hop::Twice, self.older),
            Hop::Twice => return None,
        };
        (past.server != NONE).then_some((hop, past))
    }
}

/// A packet after its carrier header. One carrier has all packets in turn.
struct Carrier {
    octets: Box<[u8; 65_536]>,
    length: usize,
}

impl Carrier {
    fn new() -> Carrier {
        let octets = vec![0; 65_536].into_boxed_slice().try_into().unwrap();
        Carrier { octets, length: 0 }
    }

    fn write(&mut self, words: &[u32; WORDS]) {
        for (place, word) in self.octets.chunks_exact_mut(4).zip(words) {
            place.copy_from_slice(&word.to_be_bytes());
        }
    }

    /// The packet after the header of the tag.
    fn load(&mut self, tag: &Tag, packet: &[u8]) {
        self.length = HEADER + packet.len();
        self.write(&tag.words(self.length as u16));
        self.octets[HEADER..self.length].copy_from_slice(packet);
    }

    /// The tag and the segment that the server reads, if the copy is its own.
    fn read(&self, server: u16) -> Option<(Tag, Segment)> {
        let words = std::array::from_fn(|at| number(&self.octets[..HEADER], 4 * at));
        let tag = Tag::read(&words, self.length).filter(|tag| tag.dest == server)?;
        let (segment, _) = read_packet(&self.octets[HEADER..self.length]).ok()?;
        Some((tag, segment))
    }

    /// Turns the header to the next hop.
    fn turn(&mut self, tag: &Tag, hop: Hop, dest: u16) -> Tag {
        let next = Tag { hop, dest, ..*tag };
        self.write(&next.words(self.length as u16));
        next
    }
}

// FLOWS

/// A connection that a server holds: which Accept opened it, and its receiver.
#[derive(Clone, Copy)]
struct Held {
    server: u16,
    accept: u32,
    receiver: Receiver,
}

#[derive(Clone, Copy)]
struct Receiver {
    start: u32,
    next: u32,
    is_finished: bool,
}

#[derive(Clone, Copy, PartialEq, Eq)]
enum Taken {
    Advance,
    Duplicate,
    Ahead,
    Outside,
    Challenge,
    Ended,
}

impl Receiver {
    fn open(s: &Segment) -> Receiver {
        Receiver { start: s.seq, next: s.seq.wrapping_add(s.len), is_finished: false }
    }

    fn accepts(&self, s: &Segment) -> bool {
        let is_inside = |at: u32| at.wrapping_sub(self.next) < WINDOW;
        is_inside(s.seq) || s.len > 0 && is_inside(s.seq.wrapping_add(s.len - 1))
    }

    fn judge(&self, s: &Segment) -> Taken {
        let end = s.seq.wrapping_add(s.len);
        if s.is_opening() {
            if s.seq == self.start { Taken::Duplicate } else { Taken::Challenge }
        } else if s.has(RST) {
            match s.seq.wrapping_sub(self.next) {
                0 => Taken::Ended,
                after if after < WINDOW => Taken::Challenge,
                _ => Taken::Outside,
            }
        } else if s.has(SYN) {
            Taken::Challenge
        } else if !self.accepts(s) {
            if self.next.wrapping_sub(end) < 1 << 31 { Taken::Duplicate } else { Taken::Outside }
        } else if self.next.wrapping_sub(s.seq) < s.len || s.len == 0 && s.seq == self.next {
            Taken::Advance
        } else {
            Taken::Ahead
        }
    }

    fn take(&mut self, s: &Segment) -> Taken {
        let taken = self.judge(s);
        if taken == Taken::Advance {
            self.next = s.seq.wrapping_add(s.len);
            self.is_finished |= s.has(FIN);
        }
        taken
    }
}

/// The last Accept of a flow: its server and its number, and how often the bucket had moved when its packet was steered.
#[derive(Clone, Copy)]
struct Accepted {
    server: u16,
    number: u32,
    moves: u32,
}

/// A flow: its bucket, its shard at each server, its last Accept, and the connections that servers hold of it.
struct Known {
    flow: Flow,
    hash: u64,
    bucket: u32,
    shard: u16,
    accepted: Accepted,
    held: Option<Held>,
    held_elsewhere: Vec<Held>,
}

impl Known {
    fn new(flow: Flow, hash: u64, setting: &Setting) -> Known {
        let accepted = Accepted { server: NONE, number: 0, moves: 0 };
        let (bucket, shard) = ((hash % u64::from(setting.buckets)) as u32, ((hash >> 32) % setting.shards) as u16);
        Known { flow, hash, bucket, shard, accepted, held: None, held_elsewhere: Vec::new() }
    }

    fn held_at(&mut self, server: u16) -> Option<&mut Held> {
        let first = self.held.as_mut().filter(|held| held.server == server);
        first.or_else(|| self.held_elsewhere.iter_mut().find(|held| held.server == server))
    }

    fn hold(&mut self, held: Held) {
        if self.held.is_none() { self.held = Some(held) } else { self.held_elsewhere.push(held) }
    }

    fn end_at(&mut self, server: u16) {
        if self.held.is_some_and(|held| held.server == server) {
            self.held = self.held_elsewhere.pop();
        } else {
            self.held_elsewhere.retain(|held| held.server != server);
        }
    }

    /// Whether the server still holds what it accepted last.
    fn holds(&mut self, owner: &Accepted) -> bool {
        self.held_at(owner.server).is_some_and(|held| held.accept == owner.number)
    }

    fn is_held_elsewhere(&self, server: u16) -> bool {
        self.held.iter().chain(&self.held_elsewhere).any(|held| held.server != server)
    }
}

/// The flows by their numbers. A slot has the high half of a flow's hash and one more than its number, or zero.
struct Flows {
    known: Vec<Known>,
    slots: Vec<u64>,
}

impl Flows {
    fn new() -> Flows {
        Flows { known: Vec::new(), slots: vec![0; 1024] }
    }

    /// The number of a flow, which is new if it wasn't there.
    fn number_of(&mut self, flow: &Flow, setting: &Setting) -> u32 {
        let hash = flow.hash();
        let mask = self.slots.len() - 1;
        let mut slot = hash as usize & mask;
        loop {
            let found = self.slots[slot];
            if found == 0 {
                return self.add(slot, Known::new(*flow, hash, setting));
            }
            let number = found as u32 - 1;
            if found >> 32 == hash >> 32 && self.known[number as usize].flow == *flow {
                return number;
            }
            slot = (slot + 1) & mask;
        }
    }

    fn add(&mut self, slot: usize, known: Known) -> u32 {
        let number = self.known.len() as u32;
        self.slots[slot] = known.hash >> 32 << 32 | u64::from(number + 1);
        self.known.push(known);
        if self.known.len() * 2 > self.slots.len() {
            self.grow();
        }
        number
    }

    fn grow(&mut self) {
        let mut slots = vec![0; self.slots.len() * 4];
        let mask = slots.len() - 1;
        for (known, number) in self.known.iter().zip(1..) {
            let mut slot = known.hash as usize & mask;
            while slots[slot] != 0 {
                slot = (slot + 1) & mask;
            }
            slots[slot] = known.hash >> 32 << 32 | number;
        }
        self.slots = slots;
    }
}

// SERVERS

#[derive(Clone, Copy)]
enum Why {
    NoPrevious,
    ChainExpired,
    ChainedUnknown,
}

#[derive(Clone, Copy)]
enum Verdict {
    Accept,
    Process(Taken),
    Forward(Hop, u16),
    Reset(Why),
    Silent,
    Full,
}

struct Servers {
    setting: Setting,
    /// How many connections each shard of each server holds.
    counts: Vec<u32>,
    accepts: u32,
}

impl Servers {
    fn new(setting: Setting) -> Servers {
        Servers { counts: vec![0; SERVERS * setting.shards as usize], setting, accepts: 0 }
    }

    /// What the server does with a copy, whose packet was steered when its bucket had moved so often. A connection that the copy ends is
    /// held until its cause is known.
    fn serve(&mut self, known: &mut Known, tag: &Tag, s: &Segment, moves: u32, clock: u64) -> Verdict {
        let is_direct = tag.hop == Hop::Direct;
        if let Some(held) = known.held_at(tag.dest) {
            let receiver = &mut held.receiver;
            if is_direct && receiver.is_finished && s.is_opening() && s.seq != receiver.start {
                return self.accept(known, tag, s, moves);
            }
            return Verdict::Process(receiver.take(s));
        }
        if is_direct && s.is_opening() {
            if *self.count(known, tag.dest) == self.setting.capacity {
                return Verdict::Full;
            }
            *self.count(known, tag.dest) += 1;
            return self.accept(known, tag, s, moves);
        }
        match tag.onward() {
            Some((hop, past)) if clock <= past.stamp + self.setting.timeout => Verdict::Forward(hop, past.server),
            _ if s.has(RST) => Verdict::Silent,
            Some(_) => Verdict::Reset(Why::ChainExpired),
            None if is_direct => Verdict::Reset(Why::NoPrevious),
            None => Verdict::Reset(Why::ChainedUnknown),
        }
    }

    /// The server gives up the connection.
    fn end(&mut self, known: &mut Known, server: u16) {
        known.end_at(server);
        *self.count(known, server) -= 1;
    }

    fn count(&mut self, known: &Known, server: u16) -> &mut u32 {
        &mut self.counts[usize::from(server) * self.setting.shards as usize + usize::from(known.shard)]
    }

    fn accept(&mut self, known: &mut Known, tag: &Tag, s: &Segment, moves: u32) -> Verdict {
        self.accepts += 1;
        known.accepted = Accepted { server: tag.dest, number: self.accepts, moves };
        let opened = Held { server: tag.dest, accept: self.accepts, receiver: Receiver::open(s) };
        match known.held_at(tag.dest) {
            Some(held) => *held = opened,
            None => known.hold(opened),
        }
        Verdict::Accept
    }
}

// REPORTS

/// No line, and no part of a record's line, has more octets.
const LINE: usize = 128;

/// The two digits of each number below 100.
const PAIRS: [[u8; 2]; 100] = {
    let mut pairs = [[0; 2]; 100];
    let mut number = 0;
    while number < 100 {
        pairs[number] = [b'0' + number as u8 / 10, b'0' + number as u8 % 10];
        number += 1;
    }
    pairs
};

/// The four digits of a number below 10,000, zeros in front.
#[inline(always)]
fn four_digits(number: u32) -> [u8; 4] {
    let ([a, b], [c, d]) = (PAIRS[number as usize / 100], PAIRS[number as usize % 100]);
    [a, b, c, d]
}

/// A line that is being written, in its place.
struct Line<'a> {
    octets: &'a mut [u8; LINE],
    length: usize,
}

impl Line<'_> {
    #[inline(always)]
    fn text<const N: usize>(&mut self, text: &[u8; N]) {
        self.octets[self.length..self.length + N].copy_from_slice(text);
        self.length += N;
    }

    #[inline(always)]
    fn number(&mut self, number: u64) {
        if number < 10_000 {
            self.short(number as u32);
        } else if number < 100_000_000 {
            self.short(number as u32 / 10_000);
            self.text(&four_digits(number as u32 % 10_000));
        } else {
            self.long(number / 100_000_000, (number % 100_000_000) as u32);
        }
    }

    /// A number whose last eight digits are those of `low`.
    #[inline(always)]
    fn long(&mut self, high: u64, low: u32) {
        if high < 10_000 { self.short(high as u32) } else { self.very_long(high) }
        self.text(&four_digits(low / 10_000));
        self.text(&four_digits(low % 10_000));
    }

    #[inline(never)]
    fn very_long(&mut self, number: u64) {
        number.to_string().bytes().for_each(|octet| self.text(&[octet]));
    }

    /// A number below 10,000.
    #[inline(always)]
    fn short(&mut self, number: u32) {
        if number < 10 {
            self.text(&[b'0' + number as u8]);
        } else if number < 100 {
            self.text(&PAIRS[number as usize]);
        } else if number < 1_000 {
            let [_, b, c, d] = four_digits(number);
            self.text(&[b, c, d]);
        } else {
            self.text(&four_digits(number));
        }
    }
}

/// The report, of which a part waits to be written.
struct Report<W: Write> {
    out: W,
    octets: Box<[u8]>,
    length: usize,
}

impl<W: Write> Report<W> {
    fn new(out: W) -> Report<W> {
        Report { out, octets: vec![0; 65_536].into_boxed_slice(), length: 0 }
    }

    #[inline(always)]
    fn line(&mut self, write: impl FnOnce(&mut Line)) -> io::Result<()> {
        if self.octets.len() - self.length < LINE {
            self.flush()?;
        }
        let mut line = Line { octets: self.octets[self.length..].first_chunk_mut().unwrap(), length: 0 };
        write(&mut line);
        self.length += line.length;
        Ok(())
    }

    fn flush(&mut self) -> io::Result<()> {
        let written = self.out.write_all(&self.octets[..self.length]);
        self.length = 0;
        written
    }
}

impl Line<'_> {
    fn hop(&mut self, hop: Hop) {
        match hop {
            Hop::Direct => self.text(b" direct"),
            Hop::Chained => self.text(b" chained"),
            Hop::Twice => self.text(b" twice"),
        }
    }

    fn verdict(&mut self, verdict: Verdict) {
        match verdict {
            Verdict::Accept => self.text(b" accept"),
            Verdict::Process(Taken::Advance) => self.text(b" process advance"),
            Verdict::Process(Taken::Duplicate) => self.text(b" process duplicate"),
            Verdict::Process(Taken::Ahead) => self.text(b" process ahead"),
            Verdict::Process(Taken::Outside) => self.text(b" process outside"),
            Verdict::Process(Taken::Challenge) => self.text(b" process challenge"),
            Verdict::Process(Taken::Ended) => self.text(b" process ended"),
            Verdict::Forward(_, server) => {
                self.text(b" forward ");
                self.number(server.into());
            }
            Verdict::Reset(Why::NoPrevious) => self.text(b" reset no-previous"),
            Verdict::Reset(Why::ChainExpired) => self.text(b" reset chain-expired"),
            Verdict::Reset(Why::ChainedUnknown) => self.text(b" reset chained-unknown"),
            Verdict::Silent => self.text(b" drop silent"),
            Verdict::Full => self.text(b" drop full"),
        }
    }

    fn cause(&mut self, cause: Cause) {
        match cause {
            Cause::NeverAccepted => self.text(b" because never-accepted"),
            Cause::NotHeld => self.text(b" because not-held"),
            Cause::MovedThrice => self.text(b" because moved-thrice"),
            Cause::ChainLate => self.text(b" because chain-late"),
            Cause::SynElsewhere => self.text(b" because syn-elsewhere"),
            Cause::Full => self.text(b" because full"),
        }
    }

    fn end(&mut self, end: End) {
        let server = match end {
            End::Nothing => return,
            End::Lost => return self.text(b" lost"),
            End::Unsteered(reason) => {
                self.text(b" unsteered ");
                return reason.text().bytes().for_each(|octet| self.text(&[octet]));
            }
            End::Accepted(server) => {
                self.text(b" accepted ");
                server
            }
            End::Processed(server) => {
                self.text(b" processed ");
                server
            }
            End::Reset(server) => {
                self.text(b" reset ");
                server
            }
            End::Dropped(server) => {
                self.text(b" dropped ");
                server
            }
        };
        self.number(server.into());
    }
}

// REPLAYING

/// The premise that is broken where a packet is dropped, reset or a stray.
#[derive(Clone, Copy)]
enum Cause {
    NeverAccepted,
    NotHeld,
    MovedThrice,
    ChainLate,
    SynElsewhere,
    Full,
}

/// What becomes of a record, or of a copy of its packet.
#[derive(Clone, Copy)]
enum End {
    Nothing,
    Unsteered(Reason),
    Lost,
    Accepted(u16),
    Processed(u16),
    Reset(u16),
    Dropped(u16),
}

/// A copy of a packet on its way.
#[derive(Clone, Copy)]
struct Flight<'a> {
    due: u64,
    packet: u32,
    /// The number of its flow.
    flow: u32,
    octets: &'a [u8],
    tag: Tag,
    /// The flow's last Accept before the packet was steered.
    owner: Accepted,
    /// How often the bucket had moved when the packet was steered.
    moves: u32,
}

/// The copies on their way. Those without delay wait in the order in which they are sent, the first of them at `head`. The others have
/// numbers in that order.
struct Wire<'a> {
    prompt: Vec<Flight<'a>>,
    head: usize,
    late: Vec<Flight<'a>>,
    order: BinaryHeap<Reverse<(u64, usize)>>,
    /// When the first of the delayed copies is due.
    late_due: u64,
}

impl<'a> Wire<'a> {
    fn new() -> Wire<'a> {
        Wire { prompt: Vec::new(), head: 0, late: Vec::new(), order: BinaryHeap::new(), late_due: NEVER }
    }

    #[inline(always)]
    fn put(&mut self, flight: Flight<'a>) {
        if self.prompt.len() == self.prompt.capacity() {
            self.make_room();
        }
        self.prompt.push(flight);
    }

    /// Forgets the copies before the first, if they are half of all.
    fn make_room(&mut self) {
        if self.head * 2 >= self.prompt.len() {
            self.prompt.drain(..self.head);
            self.head = 0;
        }
    }

    fn put_late(&mut self, flight: Flight<'a>) {
        self.order.push(Reverse((flight.due, self.late.len())));
        self.late.push(flight);
        self.late_due = self.late_due.min(flight.due);
    }

    /// Takes the copy that is due first, if it is due at this moment. Of two that are due at once, a delayed one was sent first.
    #[inline(always)]
    fn take(&mut self, moment: u64) -> Option<Flight<'a>> {
        let due = self.prompt.get(self.head).map_or(NEVER, |flight| flight.due);
        if self.late_due <= due.min(moment) {
            self.bring_late();
        } else if due > moment {
            return None;
        }
        let flight = self.prompt[self.head];
        self.head += 1;
        if self.head == self.prompt.len() {
            self.prompt.clear();
            self.head = 0;
        }
        Some(flight)
    }

    /// Puts the delayed copy that is due first before all others.
    #[cold]
    fn bring_late(&mut self) {
        if let Some(Reverse((_, number))) = self.order.pop() {
            self.prompt.insert(self.head, self.late[number]);
        }
        self.late_due = self.order.peek().map_or(NEVER, |Reverse((due, _))| *due);
    }
}

#[derive(Default)]
struct Totals {
    unsteered: u32,
    accepted: u32,
    processed: u32,
    forwarded: u32,
    reset: u32,
    dropped: u32,
    lost: u32,
    strays: u32,
}

struct Replay<'a, W: Write> {
    report: Report<W>,
    table: Table,
    fates: Vec<[Option<Fate>; 2]>,
    servers: Servers,
    flows: Flows,
    carrier: Carrier,
    clock: u64,
    wire: Wire<'a>,
    /// The first end of each record, and the others with their records, in the order in which they came.
    ends: Vec<End>,
    later_ends: Vec<(u32, End)>,
    totals: Totals,
}

impl<'a, W: Write> Replay<'a, W> {
    fn new(out: W, script: Script) -> Replay<'a, W> {
        Replay {
            report: Report::new(out),
            table: Table::new(&script.setting, &script.commands),
            fates: script.fates,
            servers: Servers::new(script.setting),
            flows: Flows::new(),
            carrier: Carrier::new(),
            clock: 0,
            wire: Wire::new(),
            ends: Vec::new(),
            later_ends: Vec::new(),
            totals: Totals::default(),
        }
    }

    /// The clock of an event that comes at this moment.
    fn tick(&mut self, moment: u64) -> u64 {
        self.clock = self.clock.max(moment) + 1;
        self.clock
    }

    /// Carries out the changes up to this moment: all that come at once are published before the muxes switch to the first of them.
    #[inline(never)]
    fn change_until(&mut self, moment: u64) -> io::Result<()> {
        while self.table.next <= moment {
            let (at, version, count) = (self.table.next, self.table.version, self.table.count_next());
            for version in version + 1..=version + count {
                let clock = self.tick(at);
                self.report.line(|line| {
                    line.number(clock);
                    line.text(b" publish ");
                    line.number(version.into());
                    line.text(b"\n");
                })?;
            }
            for _ in 0..count {
                self.switch(at)?;
            }
        }
        Ok(())
    }

    fn switch(&mut self, moment: u64) -> io::Result<()> {
        self.table.apply_next();
        let version = self.table.version;
        for mux in 0..self.servers.setting.muxes {
            let clock = self.tick(moment);
            self.report.line(|line| {
                line.number(clock);
                line.text(b" switch ");
                line.number(mux.into());
                line.text(b" ");
                line.number(version.into());
                line.text(b"\n");
            })?;
        }
        Ok(())
    }

    /// Steers the next packet, after all copies that are due have arrived.
    fn steer(&mut self, moment: u64, flow: &Flow, octets: &'a [u8]) -> io::Result<()> {
        self.arrive_until(moment)?;
        if self.table.next <= moment {
            self.change_until(moment)?;
        }
        self.ends.push(End::Nothing);
        let packet = self.ends.len() as u32;
        let number = self.flows.number_of(flow, &self.servers.setting);
        let known = &self.flows.known[number as usize];
        let (bucket, owner) = (known.bucket, known.accepted);
        let Entry { server, prev, older, moves } = self.table.entries[bucket as usize];
        let (mux, version) = (flow.sport() % self.servers.setting.muxes, self.table.version);
        let clock = self.tick(moment);
        self.report.line(|line| {
            line.number(clock);
            line.text(b" steer ");
            line.number(packet.into());
            line.text(b" ");
            line.number(mux.into());
            line.text(b" ");
            line.number(version.into());
            line.text(b" ");
            line.number(bucket.into());
            line.text(b"\n");
        })?;
        let tag = Tag { hop: Hop::Direct, mux, version, dest: server, prev, older };
        self.send(Flight { due: clock, packet, flow: number, octets, tag, owner, moves })
    }

    /// Sends a copy, or as many as the script says.
    #[inline(always)]
    fn send(&mut self, flight: Flight<'a>) -> io::Result<()> {
        if flight.packet as usize >= self.fates.len() {
            self.wire.put(flight);
            return Ok(());
        }
        self.send_by_fate(flight)
    }

    #[inline(never)]
    fn send_by_fate(&mut self, flight: Flight<'a>) -> io::Result<()> {
        let fate = self.fates[flight.packet as usize].get(flight.tag.hop as usize).copied().flatten();
        let Some(Fate { copies, delay }) = fate.filter(|fate| fate.delay > 0 || fate.copies != 1) else {
            self.wire.put(flight);
            return Ok(());
        };
        for _ in 0..copies {
            let copy = Flight { due: flight.due + delay, ..flight };
            if delay == 0 { self.wire.put(copy) } else { self.wire.put_late(copy) }
        }
        if copies == 0 { self.lose(flight.packet, flight.tag.hop) } else { Ok(()) }
    }

    fn lose(&mut self, packet: u32, hop: Hop) -> io::Result<()> {
        self.totals.lost += 1;
        self.end(packet, End::Lost);
        let clock = self.tick(self.clock);
        self.report.line(|line| {
            line.number(clock);
            line.text(b" lost ");
            line.number(packet.into());
            line.hop(hop);
            line.text(b"\n");
        })
    }

    fn arrive_until(&mut self, moment: u64) -> io::Result<()> {
        while let Some(flight) = self.wire.take(moment) {
            if self.table.next <= flight.due {
                self.change_until(flight.due)?;
            }
            self.arrive(flight)?;
        }
        Ok(())
    }

    #[inline(always)]
    fn arrive(&mut self, flight: Flight<'a>) -> io::Result<()> {
        self.carrier.load(&flight.tag, flight.octets);
        let (tag, segment) = self.carrier.read(flight.tag.dest).expect("a copy for this server");
        let clock = self.tick(flight.due);
        let known = &mut self.flows.known[flight.flow as usize];
        let verdict = self.servers.serve(known, &tag, &segment, flight.moves, clock);
        let cause = self.cause(&flight, &tag, &segment, verdict);
        self.report.line(|line| {
            line.number(clock);
            line.text(b" arrive ");
            line.number(flight.packet.into());
            line.hop(tag.hop);
            line.text(b" ");
            line.number(tag.dest.into());
            line.verdict(verdict);
            if let Some(cause) = cause {
                line.cause(cause);
            }
            line.text(b"\n");
        })?;
        self.count(flight.packet, verdict, tag.dest, cause.is_some());
        match verdict {
            Verdict::Forward(hop, server) => {
                let tag = self.carrier.turn(&tag, hop, server);
                self.send(Flight { due: clock, tag, ..flight })
            }
            Verdict::Process(Taken::Ended) => {
                self.servers.end(&mut self.flows.known[flight.flow as usize], tag.dest);
                Ok(())
            }
            _ => Ok(()),
        }
    }

    /// The cause of a drop, a reset or a stray.
    #[inline(always)]
    fn cause(&mut self, flight: &Flight, tag: &Tag, s: &Segment, verdict: Verdict) -> Option<Cause> {
        match verdict {
            Verdict::Full => Some(Cause::Full),
            _ if s.is_opening() => None,
            Verdict::Process(_) if flight.owner.server == tag.dest => None,
            Verdict::Accept | Verdict::Forward(..) => None,
            _ => {
                let lost_at = tag.onward().map(|(_, past)| past.stamp);
                self.first_broken(flight.flow, flight.owner, flight.moves, tag.dest, lost_at)
            }
        }
    }

    /// The first premise that is broken for a packet that arrives now at this server, and isn't opening. The server to which it would be
    /// forwarded lost the bucket at this moment.
    #[inline(never)]
    fn first_broken(&mut self, flow: u32, owner: Accepted, moves: u32, server: u16, lost_at: Option<u64>) -> Option<Cause> {
        let known = &mut self.flows.known[flow as usize];
        let is_late = |stamp: u64| self.clock > stamp + self.servers.setting.timeout;
        if owner.server == NONE {
            Some(Cause::NeverAccepted)
        } else if !known.holds(&owner) {
            Some(Cause::NotHeld)
        } else if moves - owner.moves >= 3 {
            Some(Cause::MovedThrice)
        } else if server != owner.server && lost_at.is_some_and(is_late) {
            Some(Cause::ChainLate)
        } else {
            known.is_held_elsewhere(owner.server).then_some(Cause::SynElsewhere)
        }
    }

    /// Counts an arrival, and keeps its end if it is one.
    #[inline(always)]
    fn count(&mut self, packet: u32, verdict: Verdict, server: u16, has_cause: bool) {
        let totals = &mut self.totals;
        let (total, end) = match verdict {
            Verdict::Accept => (&mut totals.accepted, End::Accepted(server)),
            Verdict::Process(_) => (&mut totals.processed, End::Processed(server)),
            Verdict::Reset(_) => (&mut totals.reset, End::Reset(server)),
            Verdict::Silent | Verdict::Full => (&mut totals.dropped, End::Dropped(server)),
            Verdict::Forward(..) => {
                totals.forwarded += 1;
                return;
            }
        };
        *total += 1;
        totals.strays += u32::from(has_cause && matches!(verdict, Verdict::Process(_)));
        self.end(packet, end);
    }

    fn end(&mut self, packet: u32, end: End) {
        let first = &mut self.ends[packet as usize - 1];
        if matches!(first, End::Nothing) {
            *first = end;
        } else {
            self.later_ends.push((packet, end));
        }
    }

    fn pass(&mut self, reason: Reason) {
        self.totals.unsteered += 1;
        self.ends.push(End::Unsteered(reason));
    }

    /// The rest of the events, the lines of the records, and the totals.
    fn close(&mut self, is_cut: bool) -> io::Result<()> {
        self.arrive_until(NEVER - 1)?;
        if self.table.next < NEVER {
            self.change_until(NEVER - 1)?;
        }
        self.put_ends()?;
        let packets = self.ends.len() as u64;
        if is_cut {
            self.report.line(|line| {
                line.text(b"note record ");
                line.number(packets + 1);
                line.text(b" cut short\n");
            })?;
        }
        self.report.flush()?;
        self.put_totals(packets)?;
        self.report.out.flush()
    }

    fn put_ends(&mut self) -> io::Result<()> {
        self.later_ends.sort_by_key(|(packet, _)| *packet);
        let mut later = self.later_ends.iter().peekable();
        for (end, packet) in self.ends.iter().zip(1..) {
            self.report.line(|line| {
                line.text(b"packet ");
                line.number(packet.into());
                line.end(*end);
                line.text(b"\n");
            })?;
            while let Some((_, end)) = later.next_if(|(of, _)| *of == packet) {
                self.report.length -= 1;
                self.report.line(|line| {
                    line.end(*end);
                    line.text(b"\n");
                })?;
            }
        }
        Ok(())
    }

    fn put_totals(&mut self, packets: u64) -> io::Result<()> {
        let Totals { unsteered, accepted, processed, forwarded, reset, dropped, lost, strays } = self.totals;
        let steered = packets - u64::from(unsteered);
        writeln!(
            self.report.out,
            "total packets {packets} steered {steered} unsteered {unsteered} accepted {accepted} processed {processed} \
             forwarded {forwarded} reset {reset} dropped {dropped} lost {lost} stray {strays}"
        )
    }
}

fn replay(octets: &[u8], script: Script) -> Option<io::Result<()>> {
    let capture = Capture::open(octets)?;
    let mut replay = Replay::new(io::stdout().lock(), script);
    let (mut first, mut moment) = (None, 0);
    let is_cut = capture.each(|time, octets| {
        moment = time.saturating_sub(*first.get_or_insert(time)).max(moment);
        match classify(capture.link, octets) {
            Ok((segment, packet)) => replay.steer(moment, &segment.flow, packet)?,
            Err(reason) => replay.pass(reason),
        }
        Ok(())
    });
    Some(is_cut.and_then(|is_cut| replay.close(is_cut)))
}

fn main() {
    let words: Vec<String> = env::args().skip(1).collect();
    let read = |at: usize| words.get(at).map(|name| fs::read(name).expect("a file that can be read"));
    let script = Script::read(&read(1).unwrap_or_default()).expect("a script of the keys and commands above");
    let octets = read(0).expect("usage: peer_replay CAPTURE [SCRIPT]");
    match replay(&octets, script) {
        Some(Ok(())) => {}
        Some(Err(_)) => process::exit(5),
        None => process::exit(3),
    }
}
