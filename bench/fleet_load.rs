//! Loads a server of 127.0.0.1 as a fleet does: with many connections that are kept.
//!
//! `fleet_load beats PORT CLIENTS SECONDS PAUSE_MS`: each client keeps its connection, and renews a lease of its own for so many seconds, with a pause
//! of so many milliseconds after each answer; each 100th request has a new connection. Prints `rate`, the median, the 99th and the 99.9th percentile and the
//! longest of the times of a heartbeat, in microseconds, and how many failed.
//!
//! `fleet_load idle PORT CONNECTIONS SECONDS`: opens so many connections, renews a lease by each, waits, and renews it by each again. Prints how many were
//! answered both times. `ready` is printed once all are open.
//!
//! `fleet_load slow PORT CONNECTIONS SECONDS MS`: so many connections send a byte of a request each so many milliseconds, and are opened again where they
//! were closed.
//!
//! `fleet_load lists PORT CLIENTS SECONDS`: each client fetches the listing of all without pause. Prints how many were fetched, and how many bytes.
//!
//! `fleet_load fleet PORT CLIENTS SECONDS [PAUSE_S [EACH]]`: each client has two connections. By one it renews its lease each 2 s, or each PAUSE_S, by the other it
//! fetches the listing of all at each fifth of these times, or at one of EACH. Prints as `beats` does, and how many listings were fetched, and their bytes.
//!
//! `fleet_load register PORT LEASES`: registers A/i1 and so on.
//!
//! `fleet_load chunks PORT BYTES PIECE`: sends one registration whose body comes in chunks of one byte, in pieces of so many bytes. Prints the milliseconds
//! until it is answered.

use std::env;
use std::io::{self, Read, Write};
use std::net::TcpStream;
use std::sync::Arc;
use std::sync::atomic::{AtomicU64, Ordering};
use std::thread;
use std::time::{Duration, Instant};

const REQUESTS: usize = 100;

fn connect(port: u16) -> io::Result<TcpStream> {
    let stream = TcpStream::connect(("127.0.0.1", port))?;
    stream.set_nodelay(true)?;
    stream.set_read_timeout(Some(Duration::from_secs(30)))?;
    stream.set_write_timeout(Some(Duration::from_secs(30)))?;
    Ok(stream)
}

fn renewal(lease: usize) -> String {
    format!("PUT /eureka/apps/A/i{lease}?lastDirtyTimestamp=5 HTTP/1.1\r\nHost: eureka.example.org:8761\r\nUser-Agent: Java-EurekaClient/v1.10\r\nAccept: application/json\r\n\r\n")
}

fn instance(lease: usize) -> String {
    format!(
        r#"{{"instance":{{"instanceId":"i{lease}","hostName":"h{lease}.example.org","app":"a","ipAddr":"10.0.0.1","status":"UP","lastDirtyTimestamp":"5","port":{{"$":8080,"@enabled":"true"}},"securePort":{{"$":443,"@enabled":"false"}},"homePageUrl":"http://h{lease}.example.org:8080/","statusPageUrl":"http://h{lease}.example.org:8080/info","healthCheckUrl":"http://h{lease}.example.org:8080/health","vipAddress":"a","secureVipAddress":"a","countryId":1,"metadata":{{"zone":"z1"}},"dataCenterInfo":{{"@class":"com.netflix.appinfo.InstanceInfo$DefaultDataCenterInfo","name":"MyOwn"}}}}}}"#
    )
}

/// Reads one response, and gives the number of its status and of the bytes of its body.
fn read_answer(stream: &mut TcpStream, buffer: &mut Vec<u8>) -> io::Result<(u16, usize)> {
    buffer.clear();
    let mut piece = [0u8; 65_536];
    loop {
        if let Some(end) = buffer.windows(4).position(|four| four == b"\r\n\r\n") {
            let head = String::from_utf8_lossy(&buffer[..end]).to_ascii_lowercase();
            let status = head.split(' ').nth(1).and_then(|text| text.parse().ok()).unwrap_or(0);
            let length: usize = head
                .lines()
                .find_map(|line| line.strip_prefix("content-length:"))
                .and_then(|text| text.trim().parse().ok())
                .unwrap_or(0);
            let mut had = buffer.len() - end - 4;
            while had < length {
                let count = stream.read(&mut piece)?;
                if count == 0 {
                    return Err(io::ErrorKind::UnexpectedEof.into());
                }
                had += count;
            }
            return Ok((status, length));
        }
        let count = stream.read(&mut piece)?;
        if count == 0 {
            return Err(io::ErrorKind::UnexpectedEof.into());
        }
        buffer.extend_from_slice(&piece[..count]);
    }
}

fn ask(stream: &mut TcpStream, buffer: &mut Vec<u8>, request: &str) -> io::Result<(u16, usize)> {
    stream.write_all(request.as_bytes())?;
    read_answer(stream, buffer)
}

fn register(port: u16, leases: usize) -> io::Result<()> {
    let mut buffer = Vec::new();
    let mut stream = connect(port)?;
    for lease in 1..=leases {
        if lease % REQUESTS == 0 {
            stream = connect(port)?;
        }
        let body = instance(lease);
        let request = format!("POST /eureka/apps/a HTTP/1.1\r\nHost: x\r\nContent-Length: {}\r\n\r\n{body}", body.len());
        let (status, _) = ask(&mut stream, &mut buffer, &request)?;
        assert_eq!(status, 204, "a registration");
    }
    Ok(())
}

/// What clients measured: the microseconds of each request, how many failed, and the bytes of the bodies.
#[derive(Default)]
struct Times {
    micros: Vec<u32>,
    failed: u64,
    bytes: u64,
}

impl Times {
    fn add(&mut self, other: Times) {
        self.micros.extend(other.micros);
        self.failed += other.failed;
    }

    fn tell(&mut self, seconds: f64) {
        self.micros.sort_unstable();
        let count = self.micros.len();
        let at = |share: f64| self.micros.get((count as f64 * share) as usize).or(self.micros.last()).copied().unwrap_or(0);
        println!(
            "rate {:.0} median {} p99 {} p999 {} longest {} failed {}",
            count as f64 / seconds,
            at(0.5),
            at(0.99),
            at(0.999),
            self.micros.last().copied().unwrap_or(0),
            self.failed
        );
    }
}

/// One client's heartbeats until the time is up.
fn beat(port: u16, lease: usize, until: Instant, pause: Duration) -> Times {
    let mut times = Times::default();
    let mut buffer = Vec::new();
    let request = renewal(lease);
    let mut stream = None;
    let mut left = 0;
    while Instant::now() < until {
        if left == 0 || stream.is_none() {
            stream = connect(port).ok();
            left = REQUESTS;
        }
        let began = Instant::now();
        let answer = match &mut stream {
            Some(stream) => ask(stream, &mut buffer, &request),
            None => Err(io::ErrorKind::NotConnected.into()),
        };
        left -= 1;
        match answer {
            Ok((200 | 404, _)) => times.micros.push(began.elapsed().as_micros() as u32),
            _ => {
                times.failed += 1;
                stream = None;
            }
        }
        if !pause.is_zero() {
            thread::sleep(pause);
        }
    }
    times
}

fn beats(port: u16, clients: usize, seconds: u64, pause: u64) -> Times {
    let until = Instant::now() + Duration::from_secs(seconds);
    let threads: Vec<_> = (1..=clients)
        .map(|lease| thread::spawn(move || beat(port, lease, until, Duration::from_millis(pause))))
        .collect();
    let mut all = Times::default();
    for thread in threads {
        all.add(thread.join().expect("a client"));
    }
    all
}

fn idle(port: u16, connections: usize, seconds: u64) -> io::Result<()> {
    let mut buffer = Vec::new();
    let mut streams = Vec::new();
    let mut first = 0;
    for lease in 1..=connections {
        let mut stream = connect(port)?;
        if matches!(ask(&mut stream, &mut buffer, &renewal(lease)), Ok((200 | 404, _))) {
            first += 1;
        }
        streams.push(stream);
    }
    println!("ready");
    thread::sleep(Duration::from_secs(seconds));
    let mut again = 0;
    for (lease, stream) in streams.iter_mut().enumerate() {
        if matches!(ask(stream, &mut buffer, &renewal(lease + 1)), Ok((200 | 404, _))) {
            again += 1;
        }
    }
    println!("idle {connections} answered {first} and {again}");
    Ok(())
}

fn slow(port: u16, connections: usize, seconds: u64, ms: u64) -> io::Result<()> {
    let until = Instant::now() + Duration::from_secs(seconds);
    let text: Vec<u8> = renewal(1).into_bytes();
    let mut streams: Vec<Option<(TcpStream, usize)>> = (0..connections).map(|_| None).collect();
    let mut closed = 0u64;
    while Instant::now() < until {
        let round = Instant::now();
        for place in &mut streams {
            if place.is_none() {
                *place = connect(port).ok().map(|stream| (stream, 0));
            }
            let failed = match place {
                Some((stream, at)) => {
                    let byte = [text[*at % 60]];
                    *at += 1;
                    stream.write_all(&byte).is_err()
                }
                None => false,
            };
            if failed {
                closed += 1;
                *place = None;
            }
        }
        thread::sleep(Duration::from_millis(ms).saturating_sub(round.elapsed()));
    }
    println!("slow {connections} closed {closed}");
    Ok(())
}

const LISTING: &str = "GET /eureka/apps/ HTTP/1.1\r\nHost: x\r\nAccept: application/json\r\n\r\n";

fn list(port: u16, until: Instant, count: &AtomicU64, bytes: &AtomicU64) -> io::Result<()> {
    let mut buffer = Vec::new();
    while Instant::now() < until {
        let mut stream = connect(port)?;
        for _ in 0..REQUESTS {
            if Instant::now() >= until {
                return Ok(());
            }
            let (status, length) = ask(&mut stream, &mut buffer, LISTING)?;
            assert_eq!(status, 200, "a listing");
            count.fetch_add(1, Ordering::Relaxed);
            bytes.fetch_add(length as u64, Ordering::Relaxed);
        }
    }
    Ok(())
}

fn lists(port: u16, clients: usize, seconds: u64) {
    let until = Instant::now() + Duration::from_secs(seconds);
    let (count, bytes) = (Arc::new(AtomicU64::new(0)), Arc::new(AtomicU64::new(0)));
    let threads: Vec<_> = (0..clients)
        .map(|_| {
            let (count, bytes) = (Arc::clone(&count), Arc::clone(&bytes));
            thread::spawn(move || list(port, until, &count, &bytes))
        })
        .collect();
    let failed = threads.into_iter().filter(|_| true).map(|thread| thread.join().expect("a reader")).filter(Result::is_err).count();
    println!("listings {} bytes {} failed {failed}", count.load(Ordering::Relaxed), bytes.load(Ordering::Relaxed));
}

/// How a fleet behaves: it renews at each pause, and lists at one of so many of these times.
#[derive(Clone, Copy)]
struct Habit {
    pause: Duration,
    each: usize,
}

/// Some clients of a fleet, one after the other, in the time that each of them has.
fn members(port: u16, first: usize, count: usize, until: Instant, habit: Habit, listings: &Listings) -> Times {
    let mut times = Times::default();
    let mut buffer = Vec::new();
    let mut beats: Vec<Option<(TcpStream, usize)>> = (0..count).map(|_| None).collect();
    let mut reads: Vec<Option<(TcpStream, usize)>> = (0..count).map(|_| None).collect();
    let mut round = 0usize;
    while Instant::now() < until {
        let began = Instant::now();
        for at in 0..count {
            let request = renewal(first + at);
            times.add(once(port, &mut beats[at], &mut buffer, &request));
            if (round + at) % habit.each == 0 {
                let listed = once(port, &mut reads[at], &mut buffer, LISTING);
                times.failed += listed.failed;
                listings.count.fetch_add(listed.micros.len() as u64, Ordering::Relaxed);
                listings.bytes.fetch_add(listed.bytes, Ordering::Relaxed);
            }
        }
        round += 1;
        thread::sleep(habit.pause.saturating_sub(began.elapsed()).min(until.saturating_duration_since(Instant::now())));
    }
    times
}

/// One request on a connection that is kept, and opened where it isn't or had its hundred requests.
fn once(port: u16, place: &mut Option<(TcpStream, usize)>, buffer: &mut Vec<u8>, request: &str) -> Times {
    if place.as_ref().is_none_or(|(_, had)| *had == REQUESTS) {
        *place = connect(port).ok().map(|stream| (stream, 0));
    }
    let began = Instant::now();
    let answer = match place {
        Some((stream, had)) => {
            *had += 1;
            ask(stream, buffer, request)
        }
        None => Err(io::ErrorKind::NotConnected.into()),
    };
    match answer {
        Ok((200, length)) => Times { micros: vec![began.elapsed().as_micros() as u32], failed: 0, bytes: length as u64 },
        _ => {
            *place = None;
            Times { micros: Vec::new(), failed: 1, bytes: 0 }
        }
    }
}

/// How many listings a fleet fetched, and their bytes.
#[derive(Default)]
struct Listings {
    count: AtomicU64,
    bytes: AtomicU64,
}

fn fleet(port: u16, clients: usize, seconds: u64, pause: u64, every: usize) {
    let until = Instant::now() + Duration::from_secs(seconds);
    let listings = Arc::new(Listings::default());
    let habit = Habit { pause: Duration::from_secs(pause), each: every };
    let each = clients.div_ceil(40).max(1);
    let threads: Vec<_> = (0..clients)
        .step_by(each)
        .map(|first| {
            let listings = Arc::clone(&listings);
            let count = each.min(clients - first);
            thread::spawn(move || {
                thread::sleep(Duration::from_millis(first as u64 * pause * 1_000 / clients as u64));
                members(port, first + 1, count, until, habit, &listings)
            })
        })
        .collect();
    let mut all = Times::default();
    for thread in threads {
        all.add(thread.join().expect("a part of the fleet"));
    }
    all.tell(seconds as f64);
    println!("listings {} bytes {}", listings.count.load(Ordering::Relaxed), listings.bytes.load(Ordering::Relaxed));
}

fn chunks(port: u16, bytes: usize, piece: usize) -> io::Result<()> {
    let filler = "x".repeat(bytes.saturating_sub(instance(1).len()));
    let body = instance(1).replace("\"countryId\":1", &format!("\"countryId\":1,\"filler\":\"{filler}\""));
    let mut text = String::from("POST /eureka/apps/a HTTP/1.1\r\nHost: x\r\nTransfer-Encoding: chunked\r\n\r\n");
    for byte in body.chars() {
        text.push_str("1\r\n");
        text.push(byte);
        text.push_str("\r\n");
    }
    text.push_str("0\r\n\r\n");
    let mut stream = connect(port)?;
    let mut buffer = Vec::new();
    let began = Instant::now();
    for part in text.as_bytes().chunks(piece) {
        stream.write_all(part)?;
    }
    let (status, _) = read_answer(&mut stream, &mut buffer)?;
    println!("chunks {} in pieces of {piece}: status {status} after {} ms", text.len(), began.elapsed().as_millis());
    Ok(())
}

fn main() -> io::Result<()> {
    let words: Vec<String> = env::args().skip(1).collect();
    let number = |at: usize| words.get(at).and_then(|word| word.parse::<u64>().ok()).expect("a number; see the first lines of the source");
    let port = number(1) as u16;
    match words.first().map(String::as_str) {
        Some("beats") => {
            let seconds = number(3);
            beats(port, number(2) as usize, seconds, number(4)).tell(seconds as f64);
        }
        Some("idle") => idle(port, number(2) as usize, number(3))?,
        Some("slow") => slow(port, number(2) as usize, number(3), number(4))?,
        Some("lists") => lists(port, number(2) as usize, number(3)),
        Some("fleet") => {
            let pause = if words.len() > 4 { number(4) } else { 2 };
            let each = if words.len() > 5 { number(5) as usize } else { 5 };
            fleet(port, number(2) as usize, number(3), pause, each.max(1));
        }
        Some("register") => register(port, number(2) as usize)?,
        Some("chunks") => chunks(port, number(2) as usize, number(3) as usize)?,
        _ => panic!("see the first lines of the source"),
    }
    Ok(())
}
