//! The measure of `sim.sh`: a script run on a described bus, clock by clock, as one plain Rust program without proofs. It takes
//! descriptions as they come, checks scripts in full, and visits only the ports that do something and the slaves that they ask.
//!
//! `sim DESC SCRIPT` prints the journal, `sim DESC SCRIPT --wave` the wave before it.
use std::collections::VecDeque;
use std::io::Write;

/// A JSON value, as much of it as descriptions have.
enum Json {
    Number(u64),
    Text(String),
    List(Vec<Json>),
    Object(Vec<(String, Json)>),
}

struct Reader<'a> {
    text: &'a [u8],
    at: usize,
}

impl Reader<'_> {
    fn next(&mut self) -> u8 {
        while self.text[self.at].is_ascii_whitespace() {
            self.at += 1;
        }
        self.at += 1;
        self.text[self.at - 1]
    }

    /// Whether this closes the list or object; takes a comma where it doesn't.
    fn closes(&mut self, with: u8) -> bool {
        let next = self.next();
        if next != with && next != b',' {
            self.at -= 1;
        }
        next == with
    }

    fn text(&mut self) -> String {
        let from = self.at;
        while self.text[self.at] != b'"' {
            self.at += 1;
        }
        self.at += 1;
        String::from_utf8(self.text[from..self.at - 1].to_vec()).unwrap()
    }

    fn value(&mut self) -> Json {
        match self.next() {
            b'{' => {
                let mut members = Vec::new();
                while !self.closes(b'}') {
                    assert_eq!(self.next(), b'"');
                    let key = self.text();
                    assert_eq!(self.next(), b':');
                    members.push((key, self.value()));
                }
                Json::Object(members)
            }
            b'[' => {
                let mut items = Vec::new();
                while !self.closes(b']') {
                    items.push(self.value());
                }
                Json::List(items)
            }
            b'"' => Json::Text(self.text()),
            _ => {
                let from = self.at - 1;
                while self.text[self.at].is_ascii_digit() {
                    self.at += 1;
                }
                Json::Number(std::str::from_utf8(&self.text[from..self.at]).unwrap().parse().unwrap())
            }
        }
    }
}

impl Json {
    fn get(&self, key: &str) -> Option<&Json> {
        let Json::Object(members) = self else { panic!("object") };
        members.iter().find(|member| member.0 == key).map(|member| &member.1)
    }

    fn number(&self, key: &str, default: u64) -> u64 {
        match self.get(key) {
            Some(Json::Number(number)) => *number,
            Some(Json::Text(text)) => u64::from_str_radix(&text[2..], 16).unwrap(),
            _ => default,
        }
    }

    fn text(&self, key: &str) -> &str {
        let Some(Json::Text(text)) = self.get(key) else { return "" };
        text
    }

    fn list(&self, key: &str) -> &[Json] {
        let Some(Json::List(items)) = self.get(key) else { panic!("list") };
        items
    }
}

fn put_product(of: &Json, record: &mut [u8; 64]) {
    let product = of.get("product").unwrap();
    record[0x18..0x20].copy_from_slice(&product.number("vendor", 0).to_be_bytes());
    for (key, at) in [("device", 0x20), ("version", 0x24), ("date", 0x28)] {
        record[at..at + 4].copy_from_slice(&(product.number(key, 0) as u32).to_be_bytes());
    }
    record[0x2C..0x3F].fill(b' ');
    let name = product.text("name").as_bytes();
    record[0x2C..0x2C + name.len()].copy_from_slice(name);
}

fn size_of(item: &Json) -> u64 {
    match item.text("kind") {
        "ram" => item.number("size", 0),
        "regs" => 4 * item.list("words").len() as u64,
        "fifo" => 8,
        _ => item.get("bus").unwrap().number("last", 0) + 1,
    }
}

fn record_of(item: &Json) -> [u8; 64] {
    let mut record = [0; 64];
    let kind = item.text("kind");
    if kind == "empty" {
        record[0x3F] = 0xFF;
        return record;
    }
    put_product(item, &mut record);
    if kind == "integration" {
        record[0x3F] = 0x80;
        return record;
    }
    let at = item.number("at", 0);
    record[0x08..0x10].copy_from_slice(&at.to_be_bytes());
    record[0x10..0x18].copy_from_slice(&(at + size_of(item) - 1).to_be_bytes());
    if kind == "bridge" {
        record[..8].copy_from_slice(&(at + item.get("bus").unwrap().number("sdb", 0)).to_be_bytes());
        record[0x3F] = 2;
    } else {
        record[..2].copy_from_slice(&(item.number("abi_class", 0) as u16).to_be_bytes());
        record[2] = item.number("abi_major", 0) as u8;
        record[3] = item.number("abi_minor", 0) as u8;
        record[7] = 7;
        record[0x3F] = 1;
    }
    record
}

fn table(bus: &Json) -> Vec<u8> {
    let items = bus.list("items");
    let mut interconnect = [0; 64];
    put_product(bus, &mut interconnect);
    interconnect[..4].copy_from_slice(b"SDB-");
    interconnect[4..6].copy_from_slice(&(items.len() as u16 + 1).to_be_bytes());
    interconnect[6] = 1;
    interconnect[0x10..0x18].copy_from_slice(&bus.number("last", 0).to_be_bytes());
    let records = items.iter().flat_map(record_of);
    interconnect.into_iter().chain(records).collect()
}

#[derive(Clone, Copy)]
enum Mode {
    Ro,
    Rw,
    W1c,
}

enum Function {
    Ram(Vec<u32>),
    Rom(Vec<u32>),
    Registers(Vec<(Mode, u32)>),
    Fifo { words: VecDeque<u32>, depth: usize },
}

#[derive(Clone, Copy)]
enum Answer {
    Ack(u32),
    Err,
    Rty,
}

impl Function {
    /// A whole word is written or read at an offset.
    fn apply(&mut self, write: bool, offset: u64, dat: u32) -> Answer {
        let at = offset as usize / 4;
        match (self, write) {
            (Function::Ram(words) | Function::Rom(words), false) => Answer::Ack(words[at]),
            (Function::Ram(words), true) => {
                words[at] = dat;
                Answer::Ack(0)
            }
            (Function::Rom(_), true) => Answer::Err,
            (Function::Registers(words), false) => Answer::Ack(words[at].1),
            (Function::Registers(words), true) => {
                match &mut words[at] {
                    (Mode::Ro, _) => {}
                    (Mode::Rw, word) => *word = dat,
                    (Mode::W1c, word) => *word &= !dat,
                }
                Answer::Ack(0)
            }
            (Function::Fifo { words, .. }, false) if at == 0 => words.pop_front().map_or(Answer::Rty, Answer::Ack),
            (Function::Fifo { words, .. }, false) => Answer::Ack(words.len() as u32),
            (Function::Fifo { words, depth }, true) if at == 0 => {
                if words.len() == *depth {
                    return Answer::Rty;
                }
                words.push_back(dat);
                Answer::Ack(0)
            }
            (Function::Fifo { .. }, true) => Answer::Err,
        }
    }
}

/// A device or the miss of a bus: how many clocks beyond the first an answer takes, and whether one request is taken at a time.
struct Leaf {
    function: Option<Function>,
    wait: u64,
    one: bool,
}

/// A range of absolute addresses on the way to a leaf, in the tables of its bus.
enum Behind {
    Leaf(usize),
    Bus(Ranges),
}

struct Ranges {
    /// First and last address, the number in the order of the bus's table, and what is behind.
    ranges: Vec<(u64, u64, usize, Behind)>,
    miss: usize,
}

/// Where an address leads.
struct Way {
    top: Option<usize>,
    leaf: usize,
    offset: u64,
}

impl Ranges {
    fn find(&self, adr: u64) -> Option<&(u64, u64, usize, Behind)> {
        let after = self.ranges.partition_point(|range| range.0 <= adr);
        self.ranges.get(after.checked_sub(1)?).filter(|range| adr <= range.1)
    }

    fn way(&self, adr: u64) -> Way {
        let top = self.find(adr).map(|range| range.2);
        let (mut bus, mut adr) = (self, adr);
        loop {
            let Some((first, _, _, behind)) = bus.find(adr) else { return Way { top, leaf: bus.miss, offset: 0 } };
            adr -= first;
            match behind {
                Behind::Leaf(leaf) => return Way { top, leaf: *leaf, offset: adr },
                Behind::Bus(child) => bus = child,
            }
        }
    }
}

fn words_in(octets: &[u8]) -> Vec<u32> {
    octets.chunks(4).map(|word| u32::from_be_bytes(word.try_into().unwrap())).collect()
}

fn register(word: &Json) -> (Mode, u32) {
    let mode = match word.text("mode") {
        "ro" => Mode::Ro,
        "rw" => Mode::Rw,
        _ => Mode::W1c,
    };
    (mode, word.number("reset", 0) as u32)
}

fn bus_of(bus: &Json, leaves: &mut Vec<Leaf>) -> Ranges {
    let mut ranges = Vec::new();
    for item in bus.list("items") {
        let function = match item.text("kind") {
            "ram" => Function::Ram(vec![0; size_of(item) as usize / 4]),
            "regs" => Function::Registers(item.list("words").iter().map(register).collect()),
            "fifo" => Function::Fifo { words: VecDeque::new(), depth: item.number("depth", 0) as usize },
            "bridge" => {
                let at = item.number("at", 0);
                let child = bus_of(item.get("bus").unwrap(), leaves);
                ranges.push((at, at + size_of(item) - 1, ranges.len(), Behind::Bus(child)));
                continue;
            }
            _ => continue,
        };
        let more = match item.text("port") {
            "classic" => 1,
            "wrapped" => 2,
            _ => 0,
        };
        let at = item.number("at", 0);
        ranges.push((at, at + size_of(item) - 1, ranges.len(), Behind::Leaf(leaves.len())));
        leaves.push(Leaf { function: Some(function), wait: item.number("wait", 0) + more, one: more != 0 });
    }
    let (at, octets) = (bus.number("sdb", 0), table(bus));
    ranges.push((at, at + octets.len() as u64 - 1, ranges.len(), Behind::Leaf(leaves.len())));
    leaves.push(Leaf { function: Some(Function::Rom(words_in(&octets))), wait: 0, one: false });
    ranges.sort_by_key(|range| range.0);
    leaves.push(Leaf { function: None, wait: 0, one: false });
    Ranges { ranges, miss: leaves.len() - 1 }
}

#[derive(Clone, Copy)]
struct Op {
    write: bool,
    adr: u64,
    dat: u32,
}

struct Line {
    master: usize,
    clock: u64,
    last: bool,
    ops: Vec<Op>,
}

fn number(word: &[u8], most: usize, base: u32) -> Option<u64> {
    if word.is_empty() || word.len() > most {
        return None;
    }
    word.iter().try_fold(0, |n, c| Some(n * u64::from(base) + u64::from((*c as char).to_digit(base)?)))
}

fn address(word: &[u8]) -> Option<u64> {
    number(word, 16, 16).filter(|adr| adr % 4 == 0)
}

fn op_of(word: &[u8]) -> Option<Op> {
    match word.split_first()? {
        (b'r', adr) => Some(Op { write: false, adr: address(adr)?, dat: 0 }),
        (b'w', rest) => {
            let at = rest.iter().position(|c| *c == b'=')?;
            Some(Op { write: true, adr: address(&rest[..at])?, dat: number(&rest[at + 1..], 8, 16)? as u32 })
        }
        _ => None,
    }
}

fn line_of(text: &[u8], masters: usize) -> Option<Line> {
    let mut words = text.split(|c| *c == b' ');
    let master = number(words.next()?, 5, 10)? as usize;
    let clock = number(words.next()?, 5, 10)?;
    let last = match words.next()? {
        b"end" => true,
        b"hold" => false,
        _ => return None,
    };
    let ops = words.map(op_of).collect::<Option<Vec<Op>>>()?;
    let fits = master < masters && clock <= 10_000 && (1..=255).contains(&ops.len());
    fits.then_some(Line { master, clock, last, ops })
}

/// The lines of a script, or the number of the one that is refused.
fn script_of(text: &[u8], masters: usize) -> Result<Vec<Line>, usize> {
    if text.len() > 1_048_576 {
        return Err(0);
    }
    let body = text.strip_suffix(b"\n").unwrap_or(text);
    let mut lines = Vec::new();
    let mut ops = 0;
    if text.is_empty() {
        return Ok(lines);
    }
    for (i, line) in body.split(|c| *c == b'\n').enumerate() {
        let line = line_of(line, masters).filter(|_| i < 256).ok_or(i + 1)?;
        ops += line.ops.len();
        if ops > 4_096 {
            return Err(i + 1);
        }
        lines.push(line);
    }
    Ok(lines)
}

#[derive(Clone, Copy, PartialEq)]
enum Phase {
    Idle,
    Wants(u128),
    Holds(u128),
    Leaves,
}

/// An answer that is owed, the clock in which it comes, and the leaf that gives it.
struct Owed {
    answer: Answer,
    due: u64,
    leaf: usize,
    write: bool,
}

struct Port {
    lines: VecDeque<Line>,
    phase: Phase,
    loaded: bool,
    sent: usize,
    got: usize,
    owed: VecDeque<Owed>,
    open: Vec<(Op, Answer)>,
}

/// The signals of a port in a clock.
#[derive(Clone, Copy, Default)]
struct Signals {
    cyc: bool,
    asked: Option<(Op, bool)>,
    answer: Option<(Answer, bool)>,
}

struct Text(Vec<u8>);

impl Text {
    fn put(&mut self, text: &[u8]) {
        self.0.extend_from_slice(text);
    }

    fn decimal(&mut self, number: u64) {
        let mut digits = [0; 20];
        let (mut at, mut left) = (20, number);
        loop {
            at -= 1;
            digits[at] = b'0' + (left % 10) as u8;
            left /= 10;
            if left == 0 {
                return self.put(&digits[at..]);
            }
        }
    }

    fn word(&mut self, number: u64) {
        let mut digits = [0; 16];
        for (i, digit) in digits.iter_mut().enumerate() {
            *digit = b"0123456789ABCDEF"[(number >> (60 - 4 * i) & 15) as usize];
        }
        self.put(&digits);
    }

    fn bit(&mut self, bit: bool) {
        self.put(if bit { b" 1" } else { b" 0" });
    }
}

struct Sim {
    root: Ranges,
    leaves: Vec<Leaf>,
    tops: usize,
    depth: usize,
    ports: Vec<Port>,
    first: usize,
    held: u128,
    clock: u64,
    entries: Text,
    wave: Option<Text>,
}

impl Sim {
    fn new(description: &Json, script: Vec<Line>, wave: bool) -> Sim {
        let mut leaves = Vec::new();
        let root = bus_of(description.get("bus").unwrap(), &mut leaves);
        let port = || Port { lines: VecDeque::new(), phase: Phase::Idle, loaded: false, sent: 0, got: 0, owed: VecDeque::new(), open: Vec::new() };
        let mut ports: Vec<Port> = (0..description.number("masters", 0)).map(|_| port()).collect();
        for line in script {
            ports[line.master].lines.push_back(line);
        }
        let (tops, depth) = (root.ranges.len(), description.number("depth", 0) as usize);
        let wave = wave.then(|| Text(b"wave\n".to_vec()));
        Sim { root, leaves, tops, depth, ports, first: 0, held: 0, clock: 0, entries: Text(b"journal\n".to_vec()), wave }
    }

    fn set_of(&self, line: &Line) -> u128 {
        if !line.last {
            return (1 << self.tops) - 1;
        }
        line.ops.iter().filter_map(|op| self.root.way(op.adr).top).fold(0, |set, top| set | 1 << top)
    }

    fn release(&mut self, m: usize, cut: bool) {
        let port = &mut self.ports[m];
        if let Phase::Holds(set) = port.phase {
            self.held &= !set;
        }
        port.phase = Phase::Leaves;
        let text = &mut self.entries;
        text.put(b"cycle ");
        text.decimal(m as u64);
        text.put(if cut { b" cut\n" } else { b" whole\n" });
        for (op, answer) in port.open.drain(..) {
            text.put(if op.write { b"w " } else { b"r " });
            text.word(op.adr);
            text.put(b" 0F ");
            if op.write {
                text.word(u64::from(op.dat));
                text.put(b" ");
            }
            match answer {
                Answer::Ack(word) if !op.write => {
                    text.put(b"ack ");
                    text.word(u64::from(word));
                }
                Answer::Ack(_) => text.put(b"ack"),
                Answer::Err => text.put(b"err"),
                Answer::Rty => text.put(b"rty"),
            }
            text.put(b"\n");
        }
    }

    /// What a master does before a tick.
    fn prepare(&mut self, m: usize) {
        let port = &mut self.ports[m];
        if port.loaded && port.got == port.lines[0].ops.len() {
            port.loaded = false;
            let line = port.lines.pop_front().unwrap();
            if line.last || port.lines.is_empty() {
                self.release(m, !line.last);
            }
        }
        let port = &self.ports[m];
        let Some(line) = port.lines.front().filter(|line| line.clock <= self.clock) else { return };
        match port.phase {
            Phase::Idle => self.ports[m].phase = Phase::Wants(self.set_of(line)),
            Phase::Holds(_) if !port.loaded => {
                let port = &mut self.ports[m];
                (port.loaded, port.sent, port.got) = (true, 0, 0);
            }
            _ => {}
        }
    }

    /// The grants of a clock, from the port after the one granted last on.
    fn grant(&mut self) {
        let first = self.first;
        for i in 0..self.ports.len() {
            let m = (first + i) % self.ports.len();
            if let Phase::Wants(set) = self.ports[m].phase {
                if set & self.held == 0 {
                    self.held |= set;
                    self.ports[m].phase = Phase::Holds(set);
                    self.first = (m + 1) % self.ports.len();
                }
            }
        }
    }

    /// A port's clock, and its signals.
    fn step(&mut self, m: usize) -> Signals {
        let clock = self.clock;
        let port = &mut self.ports[m];
        let mut signals = Signals { cyc: matches!(port.phase, Phase::Wants(_) | Phase::Holds(_)), ..Signals::default() };
        let unanswered = port.owed.len();
        let asks = port.loaded && port.sent < port.lines[0].ops.len() && unanswered < self.depth;
        if asks {
            let op = port.lines[0].ops[port.sent];
            let way = self.root.way(op.adr);
            let leaf = &mut self.leaves[way.leaf];
            let waits = port.owed.iter().any(|owed| owed.leaf != way.leaf || (leaf.one && owed.due != clock));
            signals.asked = Some((op, waits));
            if !waits {
                let answer = leaf.function.as_mut().map_or(Answer::Err, |f| f.apply(op.write, way.offset, op.dat));
                port.owed.push_back(Owed { answer, due: clock + 1 + leaf.wait, leaf: way.leaf, write: op.write });
                port.sent += 1;
            }
        }
        if port.owed.front().is_some_and(|owed| owed.due == clock) {
            let owed = port.owed.pop_front().unwrap();
            port.open.push((port.lines[0].ops[port.got], owed.answer));
            port.got += 1;
            signals.answer = Some((owed.answer, owed.write));
        }
        signals
    }

    fn show(&mut self, m: usize, signals: Signals) {
        let clock = self.clock;
        let Some(text) = &mut self.wave else { return };
        text.decimal(clock);
        text.put(b" ");
        text.decimal(m as u64);
        text.bit(signals.cyc);
        text.bit(signals.asked.is_some());
        text.bit(signals.asked.is_some_and(|(op, _)| op.write));
        text.bit(signals.asked.is_some_and(|(_, stall)| stall));
        text.put(b" ");
        text.word(signals.asked.map_or(0, |(op, _)| op.adr));
        text.put(if signals.asked.is_some() { b" 0F " } else { b" 00 " });
        text.word(signals.asked.map_or(0, |(op, _)| u64::from(op.dat)));
        let (ack, err, rty, read) = match signals.answer {
            None => (false, false, false, 0),
            Some((Answer::Ack(word), write)) => (true, false, false, if write { 0 } else { word }),
            Some((Answer::Err, _)) => (false, true, false, 0),
            Some((Answer::Rty, _)) => (false, false, true, 0),
        };
        text.bit(ack);
        text.bit(err);
        text.bit(rty);
        text.put(b" ");
        text.word(u64::from(read));
        text.put(b"\n");
    }

    fn show_holders(&mut self) {
        let Some(text) = &mut self.wave else { return };
        text.decimal(self.clock);
        text.put(b" h");
        for top in 0..self.tops {
            let holds = |port: &Port| matches!(port.phase, Phase::Holds(set) if set >> top & 1 == 1);
            text.put(b" ");
            match self.ports.iter().position(holds) {
                Some(m) => text.decimal(m as u64),
                None => text.put(b"-"),
            }
        }
        text.put(b"\n");
    }

    fn run(&mut self) {
        loop {
            for m in 0..self.ports.len() {
                self.prepare(m);
            }
            let over = self.ports.iter().all(|port| port.lines.is_empty() && matches!(port.phase, Phase::Idle | Phase::Leaves));
            self.grant();
            for m in 0..self.ports.len() {
                let idle = self.ports[m].phase == Phase::Idle;
                let signals = if idle { Signals::default() } else { self.step(m) };
                self.show(m, signals);
            }
            self.show_holders();
            for port in &mut self.ports {
                if port.phase == Phase::Leaves {
                    port.phase = Phase::Idle;
                }
            }
            self.clock += 1;
            if over {
                return;
            }
        }
    }
}

fn main() {
    let words: Vec<String> = std::env::args().skip(1).collect();
    let words: Vec<&str> = words.iter().map(String::as_str).collect();
    let (description, script, wave) = match words[..] {
        ["sim", description, script] => (description, script, false),
        ["sim", description, script, "--wave"] => (description, script, true),
        _ => std::process::exit(2),
    };
    let description = Reader { text: &std::fs::read(description).unwrap(), at: 0 }.value();
    let script = match script_of(&std::fs::read(script).unwrap(), description.number("masters", 0) as usize) {
        Ok(script) => script,
        Err(line) => {
            eprintln!("script refused at line {line}");
            std::process::exit(14);
        }
    };
    let mut sim = Sim::new(&description, script, wave);
    sim.run();
    let mut out = std::io::stdout().lock();
    if let Some(wave) = &sim.wave {
        out.write_all(&wave.0).unwrap();
    }
    out.write_all(&sim.entries.0).unwrap();
}
