//! The measure of `answer.sh`: what `eb` does in the same commands, written as one plain Rust program without proofs. It checks
//! only what it needs; the replies of a piece are gathered, and written before the next is read. Like `eb` it keeps no
//! journal of the cycles; with `--journal` as the first word it does.
use std::fs::File;
use std::io::{Read, Write};

/// A device on the bus, by its first and last address.
enum Device {
    Octets { octets: Vec<u8>, is_rom: bool },
    Words(Vec<(Mode, u32)>),
    Queue { words: std::collections::VecDeque<u32>, depth: usize },
}

#[derive(Clone, Copy)]
enum Mode {
    Ro,
    Rw,
    W1c,
}

enum Target {
    Device(Device),
    Bus(Bus),
}

/// Ranges of addresses in rising order.
#[derive(Default)]
struct Bus {
    ranges: Vec<(u64, u64, Target)>,
}

fn mask(sel: u8) -> u32 {
    (0..4).filter(|lane| sel >> lane & 1 == 1).fold(0, |all, lane| all | 0xFF << (8 * lane))
}

impl Device {
    fn apply(&mut self, write: bool, adr: u64, dat: u32, sel: u8) -> Option<u32> {
        let lanes = mask(sel);
        match self {
            Device::Octets { octets, is_rom } => {
                let at = adr as usize;
                let word = u32::from_be_bytes(octets[at..at + 4].try_into().unwrap());
                if !write {
                    return Some(word & lanes);
                }
                if *is_rom {
                    return None;
                }
                octets[at..at + 4].copy_from_slice(&(word & !lanes | dat & lanes).to_be_bytes());
                Some(0)
            }
            Device::Words(words) => {
                let (mode, word) = &mut words[adr as usize / 4];
                if !write {
                    return Some(*word & lanes);
                }
                match mode {
                    Mode::Ro => {}
                    Mode::Rw => *word = *word & !lanes | dat & lanes,
                    Mode::W1c => *word &= !(dat & lanes),
                }
                Some(0)
            }
            Device::Queue { words, depth } => match (adr, write) {
                (0, true) if words.len() < *depth => {
                    words.push_back(dat);
                    Some(0)
                }
                (0, false) => words.pop_front().map(|word| word & lanes),
                (4, false) => Some(words.len() as u32 & lanes),
                _ => None,
            },
        }
    }
}

impl Bus {
    fn op(&mut self, write: bool, adr: u64, dat: u32, sel: u8) -> Option<u32> {
        let after = self.ranges.partition_point(|range| range.0 <= adr);
        let (first, last, target) = self.ranges.get_mut(after.checked_sub(1)?)?;
        if adr > *last {
            return None;
        }
        match target {
            Target::Device(device) => device.apply(write, adr - *first, dat, sel),
            Target::Bus(bus) => bus.op(write, adr - *first, dat, sel),
        }
    }
}

/// An operation with its answer.
#[allow(dead_code)]
struct Pair {
    write: bool,
    adr: u64,
    dat: u64,
    sel: u8,
    answer: Option<u64>,
}

/// What one stream needs: records of 32-bit addresses and a 32-bit port.
struct Session {
    bus: Bus,
    keeps: bool,
    journal: Vec<Vec<Pair>>,
    open: Vec<Pair>,
    reply: Vec<u8>,
    cycles: u64,
    writes: u64,
    reads: u64,
    errors: u64,
    sum: u64,
}

fn word_at(octets: &[u8], at: usize) -> u32 {
    u32::from_be_bytes(octets[at..at + 4].try_into().unwrap())
}

impl Session {
    fn new(bus: Bus, keeps: bool) -> Session {
        Session { bus, keeps, journal: Vec::new(), open: Vec::new(), reply: Vec::with_capacity(2056), cycles: 0, writes: 0, reads: 0, errors: 0, sum: 0 }
    }

    /// How many octets the record at the front has, if it is whole.
    fn size(octets: &[u8]) -> Option<usize> {
        let (writes, reads) = (*octets.get(2)? as usize, *octets.get(3)? as usize);
        let part = |count: usize| if count == 0 { 0 } else { 4 + 4 * count };
        let size = 4 + part(writes) + part(reads);
        (octets.len() >= size).then_some(size)
    }

    fn op(&mut self, write: bool, adr: u64, dat: u32, sel: u8) -> Option<u32> {
        let answer = self.bus.op(write, adr, dat, sel);
        if self.keeps {
            self.open.push(Pair { write, adr, dat: dat.into(), sel, answer: answer.map(u64::from) });
        }
        self.errors += u64::from(answer.is_none());
        answer
    }

    fn run(&mut self, record: &[u8]) {
        let (flags, enable, writes, reads) = (record[0], record[1], record[2] as usize, record[3] as usize);
        if flags & 0x11 != 0 || enable > 15 || (enable == 0 && writes + reads != 0) {
            std::process::exit(6);
        }
        let mut at = 4;
        if self.keeps {
            self.open.reserve(writes + reads);
        }
        if writes != 0 {
            let base = word_at(record, at);
            for i in 0..writes {
                let adr = if flags & 2 == 0 { base.wrapping_add(4 * i as u32) } else { base };
                self.op(true, u64::from(adr & !3), word_at(record, at + 4 + 4 * i) & mask(enable), enable);
            }
            at += 4 + 4 * writes;
        }
        self.reply.clear();
        if reads != 0 {
            let back = (flags >> 5 & 4) | (flags >> 4 & 2) | (flags & 8);
            self.reply.extend_from_slice(&[back, enable, reads as u8, 0]);
            self.reply.extend_from_slice(&record[at..at + 4]);
            for i in 0..reads {
                let answer = self.op(false, u64::from(word_at(record, at + 4 + 4 * i) & !3), 0, enable);
                let word = answer.unwrap_or(0);
                self.sum = self.sum.wrapping_add(u64::from(word));
                self.reply.extend_from_slice(&word.to_be_bytes());
            }
        }
        if flags & 8 != 0 {
            self.cycles += 1;
            if self.keeps {
                self.journal.push(std::mem::take(&mut self.open));
            }
        }
        self.writes += writes as u64;
        self.reads += reads as u64;
    }

    /// Runs what is whole of the octets, and gives how many those are.
    fn take(&mut self, octets: &[u8], mut reply: impl FnMut(&[u8])) -> usize {
        let mut at = 0;
        while let Some(size) = Session::size(&octets[at..]) {
            self.run(&octets[at..at + size]);
            if !self.reply.is_empty() {
                reply(&self.reply);
            }
            at += size;
        }
        at
    }
}

fn answer(bus: Bus, keeps: bool, capture: &str) {
    let mut file = File::open(capture).unwrap();
    // The file's own descriptor, without the line buffer of the standard output.
    let mut out = std::mem::ManuallyDrop::new(unsafe { <File as std::os::fd::FromRawFd>::from_raw_fd(1) });
    let mut header = [0; 4];
    file.read_exact(&mut header).unwrap();
    assert_eq!(header, [0x4E, 0x6F, 0x10, 0x44]);
    out.write_all(&[0x4E, 0x6F, 0x14, 0x44]).unwrap();
    let mut session = Session::new(bus, keeps);
    let (mut room, mut held) = (vec![0; 65536 + 4104], 0);
    let mut replies = Vec::with_capacity(65536 + 4104);
    loop {
        let count = file.read(&mut room[held..held + 65536]).unwrap();
        if count == 0 {
            break;
        }
        let all = held + count;
        replies.clear();
        let taken = session.take(&room[..all], |reply| replies.extend_from_slice(reply));
        out.write_all(&replies).unwrap();
        room.copy_within(taken..all, 0);
        held = all - taken;
    }
    std::process::exit(if held == 0 { 0 } else { 7 });
}

struct Draws(u32);

impl Draws {
    fn draw(&mut self) -> u32 {
        self.0 = self.0.wrapping_mul(1103515245).wrapping_add(12345) & 0x7FFF_FFFF;
        self.0 >> 16
    }
}

fn load(keeps: bool, start: u32, count: u32) {
    let mut draws = Draws(start);
    let mut session = Session::new(ram(65536), keeps);
    let (mut octets_in, mut octets_out) = (4, 4);
    let mut record = Vec::with_capacity(44);
    for _ in 0..count {
        let (a, b, c) = (draws.draw(), draws.draw(), draws.draw());
        let (writes, reads) = (1 + a % 4, 1 + c % 4);
        record.clear();
        record.extend_from_slice(&[0x88, 0x0F, writes as u8, reads as u8]);
        record.extend_from_slice(&(4 * (b % 16380)).to_be_bytes());
        for _ in 0..writes {
            let (high, low) = (draws.draw(), draws.draw());
            record.extend_from_slice(&(high * 65536 + low).to_be_bytes());
        }
        record.extend_from_slice(&[0; 4]);
        for _ in 0..reads {
            record.extend_from_slice(&(4 * (draws.draw() % 16384)).to_be_bytes());
        }
        octets_in += session.take(&record, |reply| octets_out += reply.len());
    }
    print!(
        "cycles {}\nwrites {}\nreads {}\noctets-in {octets_in}\noctets-out {octets_out}\nerrors {}\nsum {:016X}\n",
        session.cycles, session.writes, session.reads, session.errors, session.sum
    );
}

fn ram(octets: usize) -> Bus {
    let device = Device::Octets { octets: vec![0; octets], is_rom: false };
    Bus { ranges: vec![(0, octets as u64 - 1, Target::Device(device))] }
}

/// A JSON value, as much of it as descriptions have.
enum Json {
    Number(u64),
    Text(String),
    List(Vec<Json>),
    Object(Vec<(String, Json)>),
}

struct Reader<'a> {
    text: &'a [u8],
    at: usize,
}

impl Reader<'_> {
    fn next(&mut self) -> u8 {
        while self.text[self.at].is_ascii_whitespace() {
            self.at += 1;
        }
        self.at += 1;
        self.text[self.at - 1]
    }

    fn value(&mut self) -> Json {
        match self.next() {
            b'{' => {
                let mut members = Vec::new();
                if self.next() != b'}' {
                    self.at -= 1;
                    loop {
                        let Json::Text(key) = self.value() else { panic!("key") };
                        assert_eq!(self.next(), b':');
                        members.push((key, self.value()));
                        if self.next() == b'}' {
                            break;
                        }
                    }
                }
                Json::Object(members)
            }
            b'[' => {
                let mut items = Vec::new();
                if self.next() != b']' {
                    self.at -= 1;
                    loop {
                        items.push(self.value());
                        if self.next() == b']' {
                            break;
                        }
                    }
                }
                Json::List(items)
            }
            b'"' => {
                let from = self.at;
                while self.next() != b'"' {}
                Json::Text(String::from_utf8(self.text[from..self.at - 1].to_vec()).unwrap())
            }
            _ => {
                let from = self.at - 1;
                while self.text[self.at].is_ascii_digit() {
                    self.at += 1;
                }
                Json::Number(std::str::from_utf8(&self.text[from..self.at]).unwrap().parse().unwrap())
            }
        }
    }
}

impl Json {
    fn get(&self, key: &str) -> Option<&Json> {
        let Json::Object(members) = self else { panic!("object") };
        members.iter().find(|member| member.0 == key).map(|member| &member.1)
    }

    fn number(&self, key: &str, default: u64) -> u64 {
        match self.get(key) {
            Some(Json::Number(number)) => *number,
            Some(Json::Text(text)) => u64::from_str_radix(&text[2..], 16).unwrap(),
            _ => default,
        }
    }

    fn text(&self, key: &str) -> &str {
        let Some(Json::Text(text)) = self.get(key) else { panic!("text") };
        text
    }

    fn list(&self, key: &str) -> &[Json] {
        let Some(Json::List(items)) = self.get(key) else { panic!("list") };
        items
    }
}

fn product(of: &Json, record: &mut [u8; 64]) {
    let product = of.get("product").unwrap();
    record[0x18..0x20].copy_from_slice(&product.number("vendor", 0).to_be_bytes());
    for (key, at) in [("device", 0x20), ("version", 0x24), ("date", 0x28)] {
        record[at..at + 4].copy_from_slice(&(product.number(key, 0) as u32).to_be_bytes());
    }
    record[0x2C..0x3F].fill(b' ');
    let name = product.text("name").as_bytes();
    record[0x2C..0x2C + name.len()].copy_from_slice(name);
}

fn size_of(item: &Json) -> u64 {
    match item.text("kind") {
        "ram" => item.number("size", 0),
        "regs" => 4 * item.list("words").len() as u64,
        "fifo" => 8,
        _ => item.get("bus").unwrap().number("last", 0) + 1,
    }
}

fn record_of(item: &Json) -> [u8; 64] {
    let mut record = [0; 64];
    let kind = item.text("kind");
    if kind == "empty" {
        record[0x3F] = 0xFF;
        return record;
    }
    product(item, &mut record);
    if kind == "integration" {
        record[0x3F] = 0x80;
        return record;
    }
    let at = item.number("at", 0);
    record[0x08..0x10].copy_from_slice(&at.to_be_bytes());
    record[0x10..0x18].copy_from_slice(&(at + size_of(item) - 1).to_be_bytes());
    if kind == "bridge" {
        record[..8].copy_from_slice(&(at + item.get("bus").unwrap().number("sdb", 0)).to_be_bytes());
        record[0x3F] = 2;
    } else {
        record[..2].copy_from_slice(&(item.number("abi_class", 0) as u16).to_be_bytes());
        record[2] = item.number("abi_major", 0) as u8;
        record[3] = item.number("abi_minor", 0) as u8;
        record[7] = 7;
        record[0x3F] = 1;
    }
    record
}

fn table(bus: &Json) -> Vec<u8> {
    let items = bus.list("items");
    let mut interconnect = [0; 64];
    product(bus, &mut interconnect);
    interconnect[..4].copy_from_slice(b"SDB-");
    interconnect[4..6].copy_from_slice(&(items.len() as u16 + 1).to_be_bytes());
    interconnect[6] = 1;
    interconnect[0x10..0x18].copy_from_slice(&bus.number("last", 0).to_be_bytes());
    items.iter().fold(interconnect.to_vec(), |mut octets, item| {
        octets.extend_from_slice(&record_of(item));
        octets
    })
}

fn bus_of(bus: &Json) -> Bus {
    let mut ranges = Vec::new();
    for item in bus.list("items") {
        let at = item.number("at", 0);
        let target = match item.text("kind") {
            "ram" => Target::Device(Device::Octets { octets: vec![0; size_of(item) as usize], is_rom: false }),
            "regs" => Target::Device(Device::Words(item.list("words").iter().map(word_of).collect())),
            "fifo" => Target::Device(Device::Queue { words: Default::default(), depth: item.number("depth", 0) as usize }),
            "bridge" => Target::Bus(bus_of(item.get("bus").unwrap())),
            _ => continue,
        };
        ranges.push((at, at + size_of(item) - 1, target));
    }
    let (at, octets) = (bus.number("sdb", 0), table(bus));
    ranges.push((at, at + octets.len() as u64 - 1, Target::Device(Device::Octets { octets, is_rom: true })));
    ranges.sort_by_key(|range| range.0);
    Bus { ranges }
}

fn word_of(word: &Json) -> (Mode, u32) {
    let mode = match word.text("mode") {
        "ro" => Mode::Ro,
        "rw" => Mode::Rw,
        _ => Mode::W1c,
    };
    (mode, word.number("reset", 0) as u32)
}

fn build(bus: &Json, base: u64, text: &mut String) {
    use std::fmt::Write;
    let octets = table(bus);
    writeln!(text, "table {:016X} {}", base + bus.number("sdb", 0), octets.len() / 64).unwrap();
    for record in octets.chunks(64) {
        for octet in record {
            write!(text, "{octet:02X}").unwrap();
        }
        text.push('\n');
    }
    for item in bus.list("items").iter().filter(|item| item.text("kind") == "bridge") {
        build(item.get("bus").unwrap(), base + item.number("at", 0), text);
    }
}

/// A slave of 64-bit addresses and a 32-bit port, which a host asks for words.
struct Slave {
    bus: Bus,
    root: u64,
    errors: u64,
}

fn number_at(octets: &[u8], at: usize) -> u64 {
    u64::from_be_bytes(octets[at..at + 8].try_into().unwrap())
}

impl Slave {
    /// The octets of configuration space at an address: the error register, then the root table's address.
    fn configuration(&self, adr: u64) -> u32 {
        let number = if adr & 8 == 0 { self.errors } else { self.root };
        (number >> (32 - 8 * (adr & 4))) as u32
    }

    fn serve(&mut self, asked: &[u8], replies: &mut Vec<u8>) {
        let mut at = 0;
        while at < asked.len() {
            let (flags, enable, writes, reads) = (asked[at], asked[at + 1], asked[at + 2], asked[at + 3] as usize);
            if flags & 0x11 != 0 || enable > 15 || writes != 0 {
                std::process::exit(6);
            }
            let back = (flags >> 5 & 4) | (flags >> 4 & 2) | (flags & 8);
            replies.extend_from_slice(&[back, enable, reads as u8, 0, 0, 0, 0, 0]);
            replies.extend_from_slice(&asked[at + 8..at + 16]);
            for i in 0..reads {
                let adr = number_at(asked, at + 16 + 8 * i);
                let answer = if flags & 0x40 == 0 { self.bus.op(false, adr & !3, 0, enable) } else { Some(self.configuration(adr)) };
                self.errors = self.errors << u64::from(flags & 0x40 == 0) | u64::from(answer.is_none());
                replies.extend_from_slice(&u64::from(answer.unwrap_or(0)).to_be_bytes());
            }
            at += 16 + 8 * reads;
        }
    }
}

/// What discovery needs: the slave, the octets of one exchange, and the listing.
struct Tour {
    slave: Slave,
    asked: Vec<u8>,
    replies: Vec<u8>,
    text: String,
}

fn ask(asked: &mut Vec<u8>, flags: u8, addresses: &[u64]) {
    asked.extend_from_slice(&[flags, 15, 0, addresses.len() as u8, 0, 0, 0, 0, 0, 0, 0, 0, 0, 0, 0, 0]);
    for address in addresses {
        asked.extend_from_slice(&address.to_be_bytes());
    }
}

/// A reply to so many reads at the front of the octets, with the flags, all lanes and the base 0.
fn check(reply: &[u8], flags: u8, reads: u8) {
    assert_eq!(reply[..4], [flags, 15, reads, 0]);
    assert_eq!(reply[8..16], [0; 8]);
}

impl Tour {
    fn exchange(&mut self) {
        self.replies.clear();
        self.slave.serve(&self.asked, &mut self.replies);
    }

    fn root(&mut self) -> u64 {
        self.asked.clear();
        ask(&mut self.asked, 0xC8, &[8, 12]);
        self.exchange();
        check(&self.replies, 0x0C, 2);
        u64::from(word_at(&self.replies, 20)) << 32 | u64::from(word_at(&self.replies, 28))
    }

    /// A word, read as a cycle of its own.
    fn word(&mut self, adr: u64) -> u32 {
        self.asked.clear();
        ask(&mut self.asked, 0x80, &[adr]);
        ask(&mut self.asked, 0xC8, &[0, 4]);
        self.exchange();
        check(&self.replies, 0x04, 1);
        check(&self.replies[24..], 0x0C, 2);
        assert_eq!(self.replies[55] & 1, 0);
        word_at(&self.replies, 20)
    }

    /// The records of the table at an address, in a bus from a base to a last address.
    fn walk(&mut self, table: u64, base: u64, bus_last: u64, path: &str) {
        use std::fmt::Write;
        let (mut count, mut i) = (1, 0);
        while i < count {
            let mut record = [0; 64];
            for (k, word) in record.chunks_mut(4).enumerate() {
                word.copy_from_slice(&self.word(table + 64 * i + 4 * k as u64).to_be_bytes());
            }
            let (kind, first, last) = (record[0x3F], base + number_at(&record, 0x08), base + number_at(&record, 0x10));
            let name = match kind {
                0 if i == 0 && record[..4] == *b"SDB-" => "interconnect",
                1 => "device",
                2 => "bridge",
                0x80 => "integration",
                0xFF => "empty",
                _ => std::process::exit(9),
            };
            write!(self.text, "{path}{i} {name}").unwrap();
            if kind < 3 {
                assert!(first <= last && last <= bus_last);
                write!(self.text, " {first:016X}-{last:016X}").unwrap();
            }
            if kind != 0xFF {
                let title = std::str::from_utf8(&record[0x2C..0x3F]).unwrap().trim_end();
                let (device, version, date) = (word_at(&record, 0x20), word_at(&record, 0x24), word_at(&record, 0x28));
                write!(self.text, " {:016X}:{device:08X} {version:08X} {date:08X} {title}", number_at(&record, 0x18)).unwrap();
            }
            self.text.push('\n');
            if kind == 0 {
                count = u64::from(u16::from_be_bytes([record[4], record[5]]));
            }
            if kind == 2 {
                self.walk(base + number_at(&record, 0), first, last, &format!("{path}{i}."));
            }
            i += 1;
        }
    }
}

fn tour(bus: &Json) {
    let slave = Slave { bus: bus_of(bus), root: bus.number("sdb", 0), errors: 0 };
    let mut tour = Tour { slave, asked: Vec::with_capacity(64), replies: Vec::with_capacity(64), text: String::new() };
    let root = tour.root();
    tour.walk(root, 0, u64::MAX, "");
    std::io::stdout().write_all(tour.text.as_bytes()).unwrap();
}

fn description(name: &str) -> Json {
    Reader { text: &std::fs::read(name).unwrap(), at: 0 }.value()
}

fn main() {
    let words: Vec<String> = std::env::args().skip(1).collect();
    let mut words: Vec<&str> = words.iter().map(String::as_str).collect();
    let keeps = words.first() == Some(&"--journal");
    if keeps {
        words.remove(0);
    }
    match words[..] {
        ["answer", "--ram", octets, capture] => answer(ram(octets.parse().unwrap()), keeps, capture),
        ["answer", name, capture] => answer(bus_of(description(name).get("bus").unwrap()), keeps, capture),
        ["build", name] => {
            let mut text = String::new();
            build(description(name).get("bus").unwrap(), 0, &mut text);
            std::io::stdout().write_all(text.as_bytes()).unwrap();
        }
        ["tour", name] => tour(description(name).get("bus").unwrap()),
        ["load", start, count] => load(keeps, start.parse().unwrap(), count.parse().unwrap()),
        _ => std::process::exit(2),
    }
}
