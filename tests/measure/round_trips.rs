//! A client that measures a WebSocket server by round trips, and the least server to hold it against.
//!
//!     round_trips echo                                     sends each text back; prints its port first
//!     round_trips load PORT CONNECTIONS MESSAGES KIND PID  microseconds of processor time a message, messages a second,
//!                                                          microseconds of a round trip: the median, the 99th percentile
//!
//! Each connection is a thread and a station, CS-00 and on. It sends a message once the one before was answered: KIND is
//! `again` (eight events, again and again), `new` (events that rise) or `heartbeat`. Processor time is that of all
//! threads of the process PID, from when all connections have had their first messages answered.
use std::fs;
use std::io::{self, ErrorKind, Read, Write};
use std::net::{TcpListener, TcpStream};
use std::sync::{Arc, Barrier};
use std::thread;
use std::time::Instant;

/// Messages of a connection before those that are measured.
const FIRST_MESSAGES: usize = 100;

/// Bytes of the text of an event.
const EVENT_BYTES: usize = 270;

/// Events that are sent again and again.
const REPEATED: usize = 8;

const MASK: [u8; 4] = [1, 2, 3, 4];

/// The bytes that came, from which frames are taken.
struct Input {
    stream: TcpStream,
    bytes: Vec<u8>,
    end: usize,
}

impl Input {
    fn new(stream: TcpStream) -> io::Result<Input> {
        stream.set_nodelay(true)?;
        Ok(Input { stream, bytes: vec![0; 16_384], end: 0 })
    }

    fn fill(&mut self) -> io::Result<()> {
        match self.stream.read(&mut self.bytes[self.end..])? {
            0 => Err(ErrorKind::UnexpectedEof.into()),
            count => {
                self.end += count;
                Ok(())
            }
        }
    }

    fn take(&mut self, count: usize) {
        self.bytes.copy_within(count..self.end, 0);
        self.end -= count;
    }

    /// Reads the head of a request or a response of HTTP.
    fn read_head(&mut self) -> io::Result<()> {
        loop {
            if let Some(at) = self.bytes[..self.end].windows(4).position(|four| four == b"\r\n\r\n") {
                self.take(at + 4);
                return Ok(());
            }
            self.fill()?;
        }
    }

    /// Reads a frame of fewer than 65,536 bytes, and gives its text, unmasked where it was masked.
    fn read_text(&mut self) -> io::Result<Vec<u8>> {
        loop {
            if let Some((front, masked, len)) = head_of(&self.bytes[..self.end]) {
                let start = front + if masked { 4 } else { 0 };
                if self.end >= start + len {
                    let mut text = self.bytes[start..start + len].to_vec();
                    if masked {
                        let mask: [u8; 4] = self.bytes[front..start].try_into().unwrap();
                        apply(&mut text, mask);
                    }
                    self.take(start + len);
                    return Ok(text);
                }
            }
            self.fill()?;
        }
    }
}

/// Of the frame that begins here: the bytes of its head without the mask, whether it is masked, the length of its text.
fn head_of(bytes: &[u8]) -> Option<(usize, bool, usize)> {
    let (_, second) = (bytes.first()?, *bytes.get(1)?);
    let masked = second & 128 != 0;
    match second & 127 {
        126 => Some((4, masked, u16::from_be_bytes([*bytes.get(2)?, *bytes.get(3)?]) as usize)),
        len => Some((2, masked, len as usize)),
    }
}

fn apply(text: &mut [u8], mask: [u8; 4]) {
    for (at, byte) in text.iter_mut().enumerate() {
        *byte ^= mask[at % 4];
    }
}

/// The frame of a text of fewer than 65,536 bytes.
fn frame(text: &[u8], is_masked: bool) -> Vec<u8> {
    let mut bytes = Vec::with_capacity(text.len() + 8);
    let bit = if is_masked { 128 } else { 0 };
    bytes.push(0x81);
    if text.len() < 126 {
        bytes.push(bit | text.len() as u8);
    } else {
        bytes.push(bit | 126);
        bytes.extend((text.len() as u16).to_be_bytes());
    }
    let front = bytes.len() + if is_masked { 4 } else { 0 };
    if is_masked {
        bytes.extend(MASK);
    }
    bytes.extend(text);
    if is_masked {
        apply(&mut bytes[front..], MASK);
    }
    bytes
}

/// Answers a handshake with a constant, and sends each text back.
fn echo(stream: TcpStream) -> io::Result<()> {
    let mut input = Input::new(stream)?;
    input.read_head()?;
    input.stream.write_all(
        b"HTTP/1.1 101 Switching Protocols\r\nUpgrade: websocket\r\nConnection: Upgrade\r\n\
          Sec-WebSocket-Accept: s3pPLMBiTxaQ9kYGzzhZRbK+xOo=\r\nSec-WebSocket-Protocol: ocpp2.0.1\r\n\r\n",
    )?;
    loop {
        let text = input.read_text()?;
        input.stream.write_all(&frame(&text, false))?;
    }
}

/// The text of the message of this number.
fn message(kind: &str, station: usize, number: usize) -> String {
    let seq = match kind {
        "heartbeat" => return format!("[2,\"{}\",\"Heartbeat\",{{}}]", number % 10),
        "new" => number,
        _ => number % REPEATED,
    };
    let event = if seq == 0 { "Started" } else { "Updated" };
    let (day, hour, minute) = (1 + seq / 1_440, seq / 60 % 24, seq % 60);
    let time = format!("2026-03-{day:02}T{hour:02}:{minute:02}:00Z");
    let value = 1_000 + seq;
    let with = |id: &str| {
        format!(
            "[2,\"{number}\",\"TransactionEvent\",{{\"eventType\":\"{event}\",\"timestamp\":\"{time}\",\
             \"triggerReason\":\"MeterValuePeriodic\",\"seqNo\":{seq},\"transactionInfo\":{{\"transactionId\":\"{id}\"}},\
             \"meterValue\":[{{\"timestamp\":\"{time}\",\"sampledValue\":[{{\"value\":{value}}}]}}]}}]"
        )
    };
    let id = format!("T{station:02}-");
    let short = with(&id).len();
    with(&format!("{id}{}", "x".repeat(EVENT_BYTES.saturating_sub(short))))
}

/// Sends a message and waits for its answer.
fn round_trip(input: &mut Input, kind: &str, station: usize, number: usize) -> io::Result<()> {
    let text = message(kind, station, number);
    input.stream.write_all(&frame(text.as_bytes(), true))?;
    let answer = input.read_text()?;
    if answer.starts_with(b"[3,") || answer == text.as_bytes() {
        return Ok(());
    }
    Err(io::Error::other(String::from_utf8_lossy(&answer).into_owned()))
}

/// The nanoseconds of each round trip of a connection.
fn measure(port: u16, station: usize, messages: usize, kind: &str, turns: &Barrier) -> io::Result<Vec<u64>> {
    let mut input = Input::new(TcpStream::connect(("127.0.0.1", port))?)?;
    let request = format!(
        "GET /ocpp/CS-{station:02} HTTP/1.1\r\nHost: 127.0.0.1:{port}\r\nUpgrade: websocket\r\n\
         Connection: Upgrade\r\nSec-WebSocket-Key: dGhlIHNhbXBsZSBub25jZQ==\r\n\
         Sec-WebSocket-Version: 13\r\nSec-WebSocket-Protocol: ocpp2.0.1\r\n\r\n"
    );
    input.stream.write_all(request.as_bytes())?;
    input.read_head()?;
    for number in 0..FIRST_MESSAGES {
        round_trip(&mut input, kind, station, number)?;
    }
    turns.wait();
    let mut took = Vec::with_capacity(messages);
    for number in FIRST_MESSAGES..FIRST_MESSAGES + messages {
        let begun = Instant::now();
        round_trip(&mut input, kind, station, number)?;
        took.push(begun.elapsed().as_nanos() as u64);
    }
    turns.wait();
    // The connection stays open until the processor time was read.
    turns.wait();
    Ok(took)
}

/// The nanoseconds that the threads of a process have run.
fn processor_time(process: u32) -> u64 {
    let threads = fs::read_dir(format!("/proc/{process}/task")).expect("the process lives");
    threads
        .filter_map(|thread| fs::read_to_string(thread.ok()?.path().join("schedstat")).ok())
        .filter_map(|text| text.split(' ').next()?.parse::<u64>().ok())
        .sum()
}

fn load(port: u16, connections: usize, messages: usize, kind: &str, process: u32) {
    let turns = Arc::new(Barrier::new(connections + 1));
    let clients: Vec<_> = (0..connections)
        .map(|station| {
            let (turns, kind) = (turns.clone(), kind.to_owned());
            thread::spawn(move || match measure(port, station, messages, &kind, &turns) {
                Ok(took) => took,
                Err(error) => {
                    // The others wait for this one, so nothing is left to do.
                    eprintln!("station {station}: {error}");
                    std::process::exit(1)
                }
            })
        })
        .collect();
    turns.wait();
    let (begun, before) = (Instant::now(), processor_time(process));
    turns.wait();
    let (seconds, after) = (begun.elapsed().as_secs_f64(), processor_time(process));
    turns.wait();
    let mut took: Vec<u64> = clients.into_iter().flat_map(|client| client.join().expect("it ended")).collect();
    took.sort_unstable();
    let all = (connections * messages) as f64;
    let micros = |nanos: u64| nanos as f64 / 1_000.0;
    println!(
        "{:.3} {:.0} {:.1} {:.1}",
        micros(after - before) / all,
        all / seconds,
        micros(took[took.len() / 2]),
        micros(took[took.len() * 99 / 100])
    );
}

fn main() {
    let words: Vec<String> = std::env::args().skip(1).collect();
    let words: Vec<&str> = words.iter().map(String::as_str).collect();
    match words[..] {
        ["echo"] => {
            let listener = TcpListener::bind("127.0.0.1:0").expect("a port is free");
            println!("{}", listener.local_addr().expect("it listens").port());
            for stream in listener.incoming().flatten() {
                thread::spawn(move || echo(stream));
            }
        }
        ["load", port, connections, messages, kind, process] => load(
            port.parse().expect("a port"),
            connections.parse().expect("how many connections"),
            messages.parse().expect("how many messages of each"),
            kind,
            process.parse().expect("a process"),
        ),
        _ => panic!("round_trips echo, or round_trips load PORT CONNECTIONS MESSAGES KIND PID"),
    }
}
