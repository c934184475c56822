//! The plain server that `eureka serve` is compared with: the same requests of one lease, threads over a map behind std's `Mutex`, and no proofs.
//!
//! `serve_plain serve --port PORT --sessions N --workers N`: as many threads each take a connection, of at most 100 requests, until so many
//! connections were served; then it prints `served N`. It registers, renews, cancels and shows one instance, and does less: no journal, no
//! overrides, no stamps, no eviction, no listings, no chunks, no percent-decoding, no bounds on what it is sent but those of memory, and of a body it
//! reads only the member `instanceId`, by its name's place.
use std::collections::HashMap;
use std::env;
use std::io::{self, Read, Write};
use std::net::{Shutdown, TcpListener, TcpStream};
use std::sync::Mutex;
use std::thread;
use std::time::{Duration, SystemTime, UNIX_EPOCH};

const REQUESTS: usize = 100;
/// So many bytes are read at once, as in the registry.
const PIECE: usize = 4096;
const TIMEOUT: Duration = Duration::from_secs(10);
const DURATION_MS: u64 = 90_000;

struct Lease {
    body: String,
    updated: u64,
}

#[derive(Default)]
struct Registry {
    leases: HashMap<(String, String), Lease>,
    renewals: u64,
}

struct Request {
    method: String,
    target: String,
    body: String,
    closes: bool,
}

/// The number of a response's status, and its body.
type Response = (u16, String);

fn now() -> u64 {
    SystemTime::now().duration_since(UNIX_EPOCH).map_or(0, |since| since.as_millis() as u64)
}

/// What the fields of a head say: the length of the body, and whether the connection ends after it.
fn fields(head: &str) -> Option<(usize, bool)> {
    let (mut len, mut closes) = (0, false);
    for line in head.split("\r\n").skip(1).filter(|line| !line.is_empty()) {
        let (name, value) = line.split_once(':')?;
        if name.eq_ignore_ascii_case("content-length") {
            len = value.trim().parse().ok()?;
        } else if name.eq_ignore_ascii_case("connection") {
            closes = value.trim().eq_ignore_ascii_case("close");
        }
    }
    Some((len, closes))
}

/// Reads once, behind the buffer. Tells whether anything came.
fn fill(stream: &mut TcpStream, buffer: &mut Vec<u8>) -> io::Result<bool> {
    let mut piece = [0; PIECE];
    let count = stream.read(&mut piece)?;
    buffer.extend_from_slice(&piece[..count]);
    Ok(count > 0)
}

/// The next request, if a whole and sound one comes.
fn read_request(stream: &mut TcpStream, buffer: &mut Vec<u8>) -> io::Result<Option<Request>> {
    let head_len = loop {
        if let Some(at) = buffer.windows(4).position(|four| four == b"\r\n\r\n") {
            break at + 4;
        }
        if !fill(stream, buffer)? {
            return Ok(None);
        }
    };
    let head = String::from_utf8_lossy(&buffer[..head_len]).into_owned();
    let mut words = head.split(' ');
    let (Some(method), Some(target), Some((len, closes))) = (words.next(), words.next(), fields(&head)) else {
        return Ok(None);
    };
    while buffer.len() < head_len + len {
        if !fill(stream, buffer)? {
            return Ok(None);
        }
    }
    let body = String::from_utf8_lossy(&buffer[head_len..head_len + len]).into_owned();
    let (method, target) = (method.to_owned(), target.to_owned());
    buffer.drain(..head_len + len);
    Ok(Some(Request { method, target, body, closes }))
}

/// The text of the member `instanceId`.
fn instance_id(body: &str) -> Option<&str> {
    let (_, rest) = body.split_once("\"instanceId\":\"")?;
    rest.split_once('"').map(|(id, _)| id)
}

/// Does what a request asks for.
fn answer(registry: &Mutex<Registry>, request: Request) -> Response {
    let none = |status| (status, String::new());
    let path = request.target.split('?').next().unwrap_or("");
    let Some(rest) = path.strip_prefix("/eureka/apps/") else {
        return none(404);
    };
    let mut segments = rest.split('/').map(str::to_owned);
    let app = segments.next().unwrap_or_default().to_ascii_uppercase();
    let id = segments.next();
    let moment = now();
    match (request.method.as_str(), id) {
        ("POST", None) => {
            let Some(id) = instance_id(&request.body).map(str::to_owned) else {
                return none(400);
            };
            let lease = Lease { body: request.body, updated: moment };
            registry.lock().unwrap().leases.insert((app, id), lease);
            none(204)
        }
        ("PUT", Some(id)) => {
            let mut registry = registry.lock().unwrap();
            let Some(lease) = registry.leases.get_mut(&(app, id)) else {
                return none(404);
            };
            lease.updated = moment + DURATION_MS;
            registry.renewals += 1;
            none(200)
        }
        ("DELETE", Some(id)) => {
            let taken = registry.lock().unwrap().leases.remove(&(app, id));
            none(if taken.is_some() { 200 } else { 404 })
        }
        ("GET", Some(id)) => match registry.lock().unwrap().leases.get(&(app, id)) {
            Some(lease) if lease.updated + DURATION_MS >= moment => (200, lease.body.clone()),
            _ => none(404),
        },
        _ => none(404),
    }
}

fn write_response(stream: &mut TcpStream, (status, body): &Response, last: bool) -> io::Result<()> {
    let phrase = match status {
        200 => "OK",
        204 => "No Content",
        400 => "Bad Request",
        _ => "Not Found",
    };
    let kind = if body.is_empty() { "" } else { "Content-Type: application/json\r\n" };
    let len = if *status == 204 { String::new() } else { format!("Content-Length: {}\r\n", body.len()) };
    let close = if last { "Connection: close\r\n" } else { "" };
    let text = format!("HTTP/1.1 {status} {phrase}\r\n{kind}{len}{close}\r\n{body}");
    stream.write_all(text.as_bytes())
}

/// One connection.
fn serve(registry: &Mutex<Registry>, mut stream: TcpStream) -> io::Result<()> {
    stream.set_nodelay(true)?;
    stream.set_read_timeout(Some(TIMEOUT))?;
    stream.set_write_timeout(Some(TIMEOUT))?;
    let mut buffer = Vec::new();
    for number in 1..=REQUESTS {
        let Some(request) = read_request(&mut stream, &mut buffer)? else {
            break;
        };
        let last = request.closes || number == REQUESTS;
        write_response(&mut stream, &answer(registry, request), last)?;
        if last {
            break;
        }
    }
    stream.shutdown(Shutdown::Both)
}

/// The number behind a word of the command line.
fn option(words: &[String], name: &str) -> usize {
    let at = words.iter().position(|word| word == name);
    at.and_then(|at| words.get(at + 1)?.parse().ok()).unwrap_or(0)
}

fn main() -> io::Result<()> {
    let words: Vec<String> = env::args().skip(1).collect();
    let sessions = option(&words, "--sessions");
    let listener = TcpListener::bind(("127.0.0.1", option(&words, "--port") as u16))?;
    let (registry, left) = (Mutex::new(Registry::default()), Mutex::new(sessions));
    let next = || {
        let mut left = left.lock().unwrap();
        *left = left.checked_sub(1)?;
        listener.accept().ok()
    };
    thread::scope(|scope| {
        for _ in 0..option(&words, "--workers") {
            scope.spawn(|| {
                while let Some((stream, _)) = next() {
                    let _ = serve(&registry, stream);
                }
            });
        }
    });
    println!("served {sessions}");
    Ok(())
}
