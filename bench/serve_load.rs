//! Loads a server of 127.0.0.1 with heartbeats, or echoes.
//!
//! `serve_load echo PORT WORKERS`: answers each head that it is sent with the same bytes, 100 to a connection, without looking.
//!
//! `serve_load beats PORT CONNECTIONS SESSIONS LEASES`: registers so many instances, 100 to a connection, and then each of so many threads
//! makes so many connections with 100 heartbeats each, one after the other, of drawn instances. Prints the heartbeats a second, and the
//! median, the 99th and the 99.9th percentile and the longest of the times of one, in microseconds.
//!
//! `serve_load soak PORT CONNECTIONS SESSIONS SEED`: each of so many threads makes so many connections: whole requests, requests that
//! are cut anywhere, and garbage, at random. Prints how many connections were made, how many heartbeats were sent whole, and how many
//! of them were done or refused; then whether a look at the lease is answered still.
//!
//! `serve_load others PORT LEASES SECONDS`: one client renews one lease without pause. Another registers so many instances that last for 1 s,
//! and then waits for so many seconds, in which the server may evict them. Prints, in microseconds, the longest registration, the longest
//! renewal meanwhile, and the longest renewal afterwards.

use std::env;
use std::io::{self, Read, Write};
use std::net::{TcpListener, TcpStream};
use std::sync::Arc;
use std::sync::atomic::{AtomicBool, Ordering};
use std::thread;
use std::time::{Duration, Instant};

const REQUESTS: usize = 100;

const BEAT: &str =
    "PUT /eureka/apps/A/i1?lastDirtyTimestamp=5 HTTP/1.1\r\nHost: eureka.example.org:8761\r\nUser-Agent: Java-EurekaClient/v1.10\r\nAccept: application/json\r\n\r\n";

const ANSWER: &str = "HTTP/1.1 200 OK\r\nContent-Length: 0\r\n\r\n";

const REFUSED: &str = "HTTP/1.1 503 ";

const LOOK: &str = "GET /eureka/apps/A/i1 HTTP/1.1\r\nHost: x\r\nConnection: close\r\n\r\n";

const LAST_ANSWER: &str = "HTTP/1.1 200 OK\r\nContent-Length: 0\r\nConnection: close\r\n\r\n";

/// Registers i1, i2 and so on; the last one of a connection closes it.
fn registration(lease: usize, last: bool) -> String {
    registration_for(lease, 90, last)
}

/// The same, for so many seconds.
fn registration_for(lease: usize, seconds: u32, last: bool) -> String {
    let body = format!(
        r#"{{"instance":{{"instanceId":"i{lease}","hostName":"h{lease}.example.org","app":"a","ipAddr":"10.0.0.1","status":"UP","lastDirtyTimestamp":"5","leaseInfo":{{"durationInSecs":{seconds}}},"dataCenterInfo":{{"name":"MyOwn"}}}}}}"#
    );
    let close = if last { "Connection: close\r\n" } else { "" };
    format!("POST /eureka/apps/a HTTP/1.1\r\nHost: x\r\n{close}Content-Length: {}\r\n\r\n{body}", body.len())
}

/// Renews the lease of an instance.
fn renewal(lease: usize) -> String {
    BEAT.replacen("A/i1", &format!("A/i{lease}"), 1)
}

/// Registers so many instances, 100 to a connection.
fn register(port: u16, leases: usize) -> io::Result<()> {
    for first in (1..=leases).step_by(REQUESTS) {
        let last = leases.min(first + REQUESTS - 1);
        let mut stream = connect(port)?;
        let mut buffer = Vec::new();
        for lease in first..=last {
            stream.write_all(registration(lease, lease == last).as_bytes())?;
            read_head(&mut stream, &mut buffer)?;
        }
    }
    Ok(())
}

fn connect(port: u16) -> io::Result<TcpStream> {
    let stream = TcpStream::connect(("127.0.0.1", port))?;
    stream.set_nodelay(true)?;
    stream.set_read_timeout(Some(Duration::from_secs(20)))?;
    stream.set_write_timeout(Some(Duration::from_secs(20)))?;
    Ok(stream)
}

/// Reads one response without a body.
fn read_head(stream: &mut TcpStream, buffer: &mut Vec<u8>) -> io::Result<()> {
    let mut piece = [0; 1024];
    loop {
        if let Some(end) = buffer.windows(4).position(|four| four == b"\r\n\r\n") {
            if !buffer.starts_with(b"HTTP/1.1 20") {
                return Err(io::Error::other(String::from_utf8_lossy(buffer).into_owned()));
            }
            buffer.drain(..end + 4);
            return Ok(());
        }
        match stream.read(&mut piece)? {
            0 => return Err(io::Error::other("closed early")),
            count => buffer.extend_from_slice(&piece[..count]),
        }
    }
}

fn ask_once(port: u16, request: &str) -> io::Result<Vec<u8>> {
    let mut stream = connect(port)?;
    stream.write_all(request.as_bytes())?;
    let mut answer = Vec::new();
    stream.read_to_end(&mut answer)?;
    Ok(answer)
}

/// A connection with heartbeats of drawn instances; the nanoseconds of each.
fn beat(port: u16, leases: usize, random: &mut Random, times: &mut Vec<u64>) -> io::Result<()> {
    let mut stream = connect(port)?;
    let mut buffer = Vec::new();
    for _ in 0..REQUESTS {
        let request = renewal(random.below(leases as u64) as usize + 1);
        let start = Instant::now();
        stream.write_all(request.as_bytes())?;
        read_head(&mut stream, &mut buffer)?;
        times.push(start.elapsed().as_nanos() as u64);
    }
    Ok(())
}

fn beats(port: u16, connections: usize, sessions: usize, leases: usize) -> io::Result<()> {
    register(port, leases)?;
    let start = Instant::now();
    let threads: Vec<_> = (0..connections)
        .map(|number| {
            thread::spawn(move || -> io::Result<Vec<u64>> {
                let mut random = Random(number as u64 + 1);
                let mut times = Vec::with_capacity(sessions * REQUESTS);
                for _ in 0..sessions {
                    beat(port, leases, &mut random, &mut times)?;
                }
                Ok(times)
            })
        })
        .collect();
    let mut times = Vec::new();
    for thread in threads {
        times.extend(thread.join().unwrap()?);
    }
    let seconds = start.elapsed().as_secs_f64();
    times.sort_unstable();
    let at = |share: f64| times[(times.len() as f64 * share) as usize] as f64 / 1000.0;
    let longest = times.last().copied().unwrap_or(0) as f64 / 1000.0;
    let rate = times.len() as f64 / seconds;
    println!("{rate:.0} {:.0} {:.0} {:.0} {longest:.0}", at(0.5), at(0.99), at(0.999));
    Ok(())
}

/// What others cost a client that renews its lease without pause.
fn others(port: u16, leases: usize, seconds: u64) -> io::Result<()> {
    register(port, 1)?;
    let start = Instant::now();
    let stop = Arc::new(AtomicBool::new(false));
    let seen = stop.clone();
    let client = thread::spawn(move || -> io::Result<Vec<(Instant, u64)>> {
        let mut random = Random(1);
        let mut times = Vec::new();
        while !seen.load(Ordering::Relaxed) {
            let mut session = Vec::with_capacity(REQUESTS);
            beat(port, 1, &mut random, &mut session)?;
            let now = Instant::now();
            times.extend(session.into_iter().map(|time| (now, time)));
        }
        Ok(times)
    });
    let mut longest = 0;
    for first in (2..=leases + 1).step_by(REQUESTS) {
        let last = (leases + 1).min(first + REQUESTS - 1);
        let mut stream = connect(port)?;
        let mut buffer = Vec::new();
        for lease in first..=last {
            let request = registration_for(lease, 1, lease == last);
            let asked = Instant::now();
            stream.write_all(request.as_bytes())?;
            read_head(&mut stream, &mut buffer)?;
            longest = longest.max(asked.elapsed().as_nanos() as u64);
        }
    }
    let registered = Instant::now();
    thread::sleep(Duration::from_secs(seconds));
    stop.store(true, Ordering::Relaxed);
    let times = client.join().unwrap()?;
    let most = |from: Instant, to: Instant| times.iter().filter(|(at, _)| *at >= from && *at < to).map(|(_, time)| *time).max().unwrap_or(0) / 1000;
    println!("{} {} {}", longest / 1000, most(start, registered), most(registered, Instant::now()));
    Ok(())
}

/// A generator of Marsaglia's (xorshift64).
struct Random(u64);

impl Random {
    fn below(&mut self, n: u64) -> u64 {
        self.0 ^= self.0 << 13;
        self.0 ^= self.0 >> 7;
        self.0 ^= self.0 << 17;
        self.0 % n
    }
}

fn count(text: &[u8], part: &str) -> u64 {
    text.windows(part.len()).filter(|piece| *piece == part.as_bytes()).count() as u64
}

/// One connection: some whole heartbeats, and then a cut one, garbage or nothing. How many were sent whole, done, and refused.
fn disturb(port: u16, random: &mut Random) -> io::Result<[u64; 3]> {
    let mut stream = connect(port)?;
    let whole = random.below(5);
    let mut text = Vec::new();
    for _ in 0..whole {
        text.extend_from_slice(BEAT.as_bytes());
    }
    let end = random.below(4);
    match end {
        0 => text.extend_from_slice(&BEAT.as_bytes()[..random.below(BEAT.len() as u64) as usize]),
        1 => {
            let body = registration(1, true);
            text.extend_from_slice(&body.as_bytes()[..random.below(body.len() as u64) as usize]);
        }
        2 => (0..random.below(20_000)).for_each(|_| text.push(random.below(256) as u8)),
        _ => {}
    }
    let cut = random.below(text.len() as u64 + 1) as usize;
    stream.write_all(&text[..cut])?;
    if random.below(2) == 0 {
        thread::sleep(Duration::from_millis(random.below(3)));
    }
    stream.write_all(&text[cut..])?;
    if random.below(4) == 0 {
        return Ok([0; 3]);
    }
    stream.shutdown(std::net::Shutdown::Write)?;
    let mut answer = Vec::new();
    stream.read_to_end(&mut answer)?;
    Ok([whole, count(&answer, ANSWER), count(&answer, REFUSED)])
}

fn soak(port: u16, connections: usize, sessions: usize, seed: u64) -> io::Result<()> {
    register(port, 1)?;
    let threads: Vec<_> = (0..connections)
        .map(|number| {
            thread::spawn(move || {
                let mut random = Random(seed.wrapping_mul(1000).wrapping_add(number as u64 + 1));
                let mut sums = [0; 4];
                for _ in 0..sessions {
                    match disturb(port, &mut random) {
                        Ok(counts) => (0..3).for_each(|at| sums[at] += counts[at]),
                        Err(_) => sums[3] += 1,
                    }
                }
                sums
            })
        })
        .collect();
    let mut sums = [0; 4];
    for thread in threads {
        let counts = thread.join().unwrap();
        (0..4).for_each(|at| sums[at] += counts[at]);
    }
    let [whole, done, refused, failed] = sums;
    let made = connections * sessions + 2;
    println!("{made} connections, {failed} failed; of {whole} heartbeats {done} were done and {refused} refused");
    let look = ask_once(port, LOOK)?;
    println!("a look: {}", String::from_utf8_lossy(&look[..15.min(look.len())]));
    Ok(())
}

/// Answers heads without looking at them.
fn echo(port: u16, workers: usize) -> io::Result<()> {
    let listener = TcpListener::bind(("127.0.0.1", port))?;
    thread::scope(|scope| {
        for _ in 0..workers {
            scope.spawn(|| {
                while let Ok((stream, _)) = listener.accept() {
                    let _ = answer_all(stream);
                }
            });
        }
    });
    Ok(())
}

fn answer_all(mut stream: TcpStream) -> io::Result<()> {
    stream.set_nodelay(true)?;
    let mut piece = [0; 4096];
    for number in 1..=REQUESTS {
        let count = stream.read(&mut piece)?;
        if count == 0 {
            return Ok(());
        }
        let last = number == REQUESTS || piece.starts_with(b"POST");
        stream.write_all(if last { LAST_ANSWER } else { ANSWER }.as_bytes())?;
        if last {
            return Ok(());
        }
    }
    Ok(())
}

fn main() -> io::Result<()> {
    let words: Vec<String> = env::args().skip(1).collect();
    let number = |place: usize| words.get(place).and_then(|word| word.parse::<u64>().ok()).unwrap_or(0);
    let (port, many, sessions) = (number(1) as u16, number(2) as usize, number(3) as usize);
    match words.first().map(String::as_str) {
        Some("echo") => echo(port, many),
        Some("beats") => beats(port, many, sessions, number(4).max(1) as usize),
        Some("soak") => soak(port, many, sessions, number(4)),
        Some("others") => others(port, many, sessions as u64),
        _ => Err(io::Error::other("echo, beats, soak or others")),
    }
}
