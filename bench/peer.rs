//! The peers of `serve.sh`: a host that asks for one word after another, one that sends a capture while it takes the replies, and an echo
//! that the first is measured against. A host prints how many seconds it took.
use std::io::{Read, Result, Write};
use std::net::{TcpListener, TcpStream};
use std::time::{Duration, Instant};
use std::{env, fs, process, thread};

const HEADER: [u8; 4] = [0x4E, 0x6F, 0x10, 0x44];

/// A read of the word at 0x20, whose reply has as many octets.
const READ: [u8; 12] = [0x88, 0x0F, 0x00, 0x01, 0, 0, 0, 0, 0, 0, 0, 0x20];

/// A connection to whoever listens there, as soon as one does.
fn reach(port: u16) -> Result<TcpStream> {
    for _ in 0..1000 {
        if let Ok(link) = TcpStream::connect(("127.0.0.1", port)) {
            link.set_nodelay(true)?;
            return Ok(link);
        }
        thread::sleep(Duration::from_millis(10));
    }
    TcpStream::connect(("127.0.0.1", port))
}

/// Gives one peer back what it sends.
fn echo(port: u16) -> Result<()> {
    let (mut link, _) = TcpListener::bind(("127.0.0.1", port))?.accept()?;
    link.set_nodelay(true)?;
    let mut room = vec![0; 65_536];
    loop {
        match link.read(&mut room)? {
            0 => return Ok(()),
            count => link.write_all(&room[..count])?,
        }
    }
}

/// Reads a word so many times, each after the one before has come.
fn ask(port: u16, count: u64) -> Result<Duration> {
    let mut link = reach(port)?;
    let mut reply = [0; 12];
    link.write_all(&HEADER)?;
    link.read_exact(&mut reply[..4])?;
    let began = Instant::now();
    for _ in 0..count {
        link.write_all(&READ)?;
        link.read_exact(&mut reply)?;
    }
    Ok(began.elapsed())
}

/// Sends a capture, and takes so many octets of replies meanwhile.
fn send(port: u16, capture: &str, replies: u64) -> Result<Duration> {
    let octets = fs::read(capture)?;
    let mut link = reach(port)?;
    let mut sender = link.try_clone()?;
    let began = Instant::now();
    let sending = thread::spawn(move || sender.write_all(&octets));
    let mut room = vec![0; 65_536];
    let mut left = replies;
    while left > 0 {
        match link.read(&mut room)? as u64 {
            0 => return Err(std::io::ErrorKind::UnexpectedEof.into()),
            count => left -= count.min(left),
        }
    }
    let took = began.elapsed();
    sending.join().unwrap()?;
    Ok(took)
}

fn main() -> Result<()> {
    let words: Vec<String> = env::args().skip(1).collect();
    let words: Vec<&str> = words.iter().map(String::as_str).collect();
    let number = |word: &str| word.parse().expect("a number");
    let took = match words[..] {
        ["echo", port] => return echo(number(port) as u16),
        ["ask", port, count] => ask(number(port) as u16, number(count))?,
        ["send", port, capture, replies] => send(number(port) as u16, capture, number(replies))?,
        _ => process::exit(2),
    };
    println!("{}", took.as_secs_f64());
    Ok(())
}
