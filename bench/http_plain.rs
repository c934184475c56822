//! The plain program that the reading of requests is compared with: heads by upstream `httparse`, owned copies of method,
//! path and query, a route by the path's segments, one buffer, and no proofs.
//!
//! It reads the requests of standard input N times, by its first word, and prints how many of them have a route. It does less:
//! it has bodies with a length alone, no percent-decoding, and no limits but those of `httparse`.
use std::io::{self, Read};

/// So many bytes are read at once, as in the registry.
const PIECE: usize = 4096;

struct Request {
    method: String,
    path: String,
    query: String,
    replicated: bool,
    closes: bool,
    body: Vec<u8>,
}

/// What a request asks for. Nothing looks at it: it is made for the time that this takes.
#[allow(dead_code)]
enum Route {
    Register { app: String },
    Renew { app: String, id: String, dirty: Option<u64> },
    Cancel { app: String, id: String },
    SetStatus { app: String, id: String },
    UnsetStatus { app: String, id: String },
    All,
    OfApp { app: String },
    One { app: String, id: String },
    Delta,
    StatusPage,
}

/// What the fields say: the length of the body, whether a peer sends the request, and whether the connection ends after it.
fn read_fields(minor: u8, headers: &[httparse::Header]) -> Result<(usize, bool, bool), ()> {
    let (mut len, mut hosts, mut replicated, mut closes) = (0, 0, false, minor == 0);
    for header in headers {
        if header.name.eq_ignore_ascii_case("host") {
            hosts += 1;
        } else if header.name.eq_ignore_ascii_case("content-length") {
            let text = std::str::from_utf8(header.value).map_err(|_| ())?;
            len = text.parse().map_err(|_| ())?;
        } else if header.name.eq_ignore_ascii_case("transfer-encoding") {
            return Err(());
        } else if header.name.eq_ignore_ascii_case("connection") {
            closes |= header.value.eq_ignore_ascii_case(b"close");
        } else if header.name.eq_ignore_ascii_case("x-netflix-discovery-replication") {
            replicated = header.value == b"true";
        }
    }
    if minor == 1 && hosts != 1 {
        return Err(());
    }
    Ok((len, replicated, closes))
}

/// The head at the front of the buffer, if it is whole, its length and that of the body.
fn read_head(buffer: &[u8]) -> Result<Option<(Request, usize, usize)>, ()> {
    let mut headers = [httparse::EMPTY_HEADER; 64];
    let mut head = httparse::Request::new(&mut headers);
    let httparse::Status::Complete(len) = head.parse(buffer).map_err(|_| ())? else {
        return Ok(None);
    };
    let (Some(method), Some(target), Some(minor)) = (head.method, head.path, head.version) else {
        return Err(());
    };
    let (body_len, replicated, closes) = read_fields(minor, head.headers)?;
    let (path, query) = target.split_once('?').unwrap_or((target, ""));
    let request = Request {
        method: method.to_owned(),
        path: path.to_owned(),
        query: query.to_owned(),
        replicated,
        closes,
        body: Vec::new(),
    };
    Ok(Some((request, len, body_len)))
}

/// The next request, none at the end of the bytes; `Err` where the bytes aren't requests.
fn read_request(reader: &mut impl Read, buffer: &mut Vec<u8>) -> Result<Option<Request>, ()> {
    let (mut request, len, body_len) = loop {
        if let Some(found) = read_head(buffer)? {
            break found;
        }
        if fill(reader, buffer)? == 0 {
            return if buffer.is_empty() { Ok(None) } else { Err(()) };
        }
    };
    while buffer.len() < len + body_len {
        if fill(reader, buffer)? == 0 {
            return Err(());
        }
    }
    request.body.extend_from_slice(&buffer[len..len + body_len]);
    buffer.drain(..len + body_len);
    Ok(Some(request))
}

/// Reads once, behind the buffer.
fn fill(reader: &mut impl Read, buffer: &mut Vec<u8>) -> Result<usize, ()> {
    let mut piece = [0; PIECE];
    let count = reader.read(&mut piece).map_err(|_| ())?;
    buffer.extend_from_slice(&piece[..count]);
    Ok(count)
}

/// The number of the first `lastDirtyTimestamp` of a query; `Err` where it is none.
fn stamp(query: &str) -> Result<Option<u64>, ()> {
    let pairs = query.split('&').filter_map(|pair| pair.split_once('='));
    match pairs.into_iter().find(|(name, _)| *name == "lastDirtyTimestamp") {
        None | Some((_, "")) => Ok(None),
        Some((_, text)) => text.parse().map(Some).map_err(|_| ()),
    }
}

/// What a request asks for, by its path's segments.
fn route(request: &Request) -> Option<Route> {
    let path = request.path.strip_suffix('/').unwrap_or(&request.path);
    let rest = path.strip_prefix("/eureka/")?;
    let rest = rest.strip_prefix("v2/").unwrap_or(rest);
    let mut segments = rest.split('/');
    let first = segments.next()?;
    let (app, id, last) = (segments.next(), segments.next(), segments.next());
    if segments.next().is_some() {
        return None;
    }
    let app = app.map(|app| app.to_ascii_uppercase());
    let id = id.map(str::to_owned);
    match (request.method.as_str(), first, app, id, last) {
        ("GET", "status", None, None, None) => Some(Route::StatusPage),
        ("GET", "apps", None, None, None) => Some(Route::All),
        ("GET", "apps", Some(_), None, None) if rest == "apps/delta" => Some(Route::Delta),
        ("GET", "apps", Some(app), None, None) => Some(Route::OfApp { app }),
        ("POST", "apps", Some(app), None, None) => Some(Route::Register { app }),
        ("GET", "apps", Some(app), Some(id), None) => Some(Route::One { app, id }),
        ("PUT", "apps", Some(app), Some(id), None) => {
            let dirty = stamp(&request.query).ok()?;
            Some(Route::Renew { app, id, dirty })
        }
        ("DELETE", "apps", Some(app), Some(id), None) => Some(Route::Cancel { app, id }),
        ("PUT", "apps", Some(app), Some(id), Some("status")) => Some(Route::SetStatus { app, id }),
        ("DELETE", "apps", Some(app), Some(id), Some("status")) => Some(Route::UnsetStatus { app, id }),
        _ => None,
    }
}

fn main() -> io::Result<()> {
    let rounds: u64 = std::env::args().nth(1).and_then(|word| word.parse().ok()).unwrap_or(1);
    let mut text = Vec::new();
    io::stdin().read_to_end(&mut text)?;
    let mut routed = 0u64;
    for _ in 0..rounds {
        let mut reader = text.as_slice();
        let mut buffer = Vec::new();
        while let Ok(Some(request)) = read_request(&mut reader, &mut buffer) {
            let found = route(&request);
            routed += u64::from(found.is_some());
            std::hint::black_box((found, request.body, request.replicated, request.closes));
        }
    }
    println!("{routed} with a route");
    Ok(())
}
