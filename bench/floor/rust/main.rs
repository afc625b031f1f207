//! The least that a server does for a SET: it reads, finds the value, copies it, lets the one before go and says OK.
//! There is one value, no lookup, no limit, no other client to agree with, and one copy of the bytes where it could
//! not do without. Sockets are used as garnetd uses them. It takes garnetd's options, and heeds none.

use std::io::{ErrorKind, Read, Write};
use std::net::{TcpListener, TcpStream};
use std::thread;
use std::time::{Duration, Instant};

/// The most bytes that are read at a time.
const PIECE_BYTES: usize = 16_384;
/// For how long it asks for input before it sleeps.
const POLL: Duration = Duration::from_micros(50);

/// Reads what comes next: asks for it for a while, then sleeps.
fn read(stream: &mut TcpStream, buffer: &mut [u8]) -> std::io::Result<usize> {
    let began = Instant::now();
    loop {
        match stream.read(buffer) {
            Err(error) if error.kind() == ErrorKind::WouldBlock => thread::yield_now(),
            read => return read,
        }
        if began.elapsed() >= POLL {
            stream.set_nonblocking(false)?;
            let read = stream.read(buffer);
            stream.set_nonblocking(true)?;
            return read;
        }
    }
}

/// The number of a line that begins with one byte, and the bytes after the line.
fn number(bytes: &[u8]) -> Option<(usize, &[u8])> {
    let end = bytes.iter().position(|&byte| byte == b'\n')?;
    let digits = bytes.get(1..end - 1)?;
    let value = digits.iter().fold(0, |value, digit| 10 * value + usize::from(digit - b'0'));
    Some((value, &bytes[end + 1..]))
}

/// The last word of the request that stands there first, and the bytes after it.
fn request(bytes: &[u8]) -> Option<(&[u8], &[u8])> {
    let (count, mut rest) = number(bytes)?;
    let mut last = rest;
    for _ in 0..count {
        let (size, word) = number(rest)?;
        rest = word.get(size + 2..)?;
        last = &word[..size];
    }
    Some((last, rest))
}

/// Answers one connection to its end.
fn serve(mut stream: TcpStream) -> std::io::Result<()> {
    stream.set_nodelay(true)?;
    stream.set_nonblocking(true)?;
    let mut buffer = vec![0; 16 * PIECE_BYTES];
    let (mut from, mut to) = (0, 0);
    let mut replies = Vec::with_capacity(PIECE_BYTES);
    let mut value = Vec::new();
    loop {
        if buffer.len() - to < PIECE_BYTES {
            buffer.copy_within(from..to, 0);
            (from, to) = (0, to - from);
        }
        match read(&mut stream, &mut buffer[to..to + PIECE_BYTES])? {
            0 => return Ok(()),
            count => to += count,
        }
        while let Some((last, rest)) = request(&buffer[from..to]) {
            value = last.to_vec();
            replies.extend_from_slice(b"+OK\r\n");
            from = to - rest.len();
        }
        if from == to {
            (from, to) = (0, 0);
        }
        if !replies.is_empty() {
            stream.write_all(&replies)?;
            replies.clear();
        }
        std::hint::black_box(&value);
    }
}

fn main() -> std::io::Result<()> {
    let listener = TcpListener::bind("127.0.0.1:0")?;
    println!("listening on {}", listener.local_addr()?);
    for stream in listener.incoming() {
        let stream = stream?;
        thread::spawn(move || serve(stream));
    }
    Ok(())
}
