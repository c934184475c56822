//! The plain program that the registry's speed is compared with: the same lines and replies, with std's `HashMap`, one buffer
//! in and one out, and no proofs. Build it with `rustc --edition 2021 -O bench/plain.rs`.
//!
//! It takes the lines of `eureka script` at their defaults, but for overrides and stamps, of which it knows nothing, and
//! stops at a bad one.
use std::collections::HashMap;
use std::io::{self, BufWriter, Read, Write};

#[derive(Clone, Copy, PartialEq)]
enum Status {
    Up,
    Down,
    Starting,
    OutOfService,
    Unknown,
}

impl Status {
    const NAMES: [(&'static str, Status); 5] = [
        ("UP", Status::Up),
        ("DOWN", Status::Down),
        ("STARTING", Status::Starting),
        ("OUT_OF_SERVICE", Status::OutOfService),
        ("UNKNOWN", Status::Unknown),
    ];

    fn read(word: &str) -> Option<Status> {
        Self::NAMES.iter().find(|(name, _)| *name == word).map(|(_, status)| *status)
    }

    fn name(self) -> &'static str {
        Self::NAMES.iter().find(|(_, status)| *status == self).map_or("", |(name, _)| name)
    }
}

struct Lease {
    status: Status,
    dirty: u64,
    secs: u64,
    registered: u64,
    updated: u64,
    up: u64,
}

#[derive(Default)]
struct Registry {
    leases: HashMap<(String, String), Lease>,
    expected: u64,
    since: u64,
    last: u64,
    previous: Option<u64>,
}

impl Registry {
    fn threshold(&self) -> u64 {
        self.expected * 60 * 85 / 3000
    }

    fn permitted(&self) -> bool {
        self.threshold() > 0 && self.last > self.threshold()
    }

    fn register(&mut self, key: (String, String), status: Status, dirty: u64, secs: u64, now: u64) {
        let held = self.leases.get(&key);
        let fresh = held.is_none();
        let (dirty, status, up) = match held {
            Some(l) if l.dirty > dirty => (l.dirty, l.status, l.up),
            Some(l) => (dirty, status, l.up),
            None => (dirty, status, 0),
        };
        if fresh && self.expected > 0 {
            self.expected += 1;
        }
        let up = if up == 0 && status == Status::Up { now } else { up };
        self.leases.insert(key, Lease { status, dirty, secs, registered: now, updated: now, up });
    }

    fn renew(&mut self, key: &(String, String), now: u64) -> bool {
        match self.leases.get_mut(key) {
            Some(l) if l.status != Status::Unknown => {
                l.updated = now + 1000 * l.secs;
                self.since += 1;
                true
            }
            _ => false,
        }
    }

    fn evict(&mut self, now: u64) -> Vec<(String, String)> {
        let extra = self.previous.map_or(0, |p| now.saturating_sub(p).saturating_sub(60_000));
        self.previous = Some(now);
        if !self.permitted() {
            return Vec::new();
        }
        let mut keys: Vec<_> = self
            .leases
            .iter()
            .filter(|(_, l)| l.updated + 1000 * l.secs + extra < now)
            .map(|(k, _)| k.clone())
            .collect();
        keys.sort();
        keys.truncate(self.leases.len() - self.leases.len() * 85 / 100);
        for key in &keys {
            self.leases.remove(key);
        }
        self.expected = self.expected.saturating_sub(keys.len() as u64);
        keys
    }
}

fn answer(r: &mut Registry, line: &str, key: &mut (String, String), out: &mut impl Write) -> Option<()> {
    let mut words = line.split(' ');
    let verb = words.next()?;
    if verb == "open" {
        r.expected = words.next()?.parse().ok()?;
        return writeln!(out, "opened").ok();
    }
    let now: u64 = words.next()?.parse().ok()?;
    let mut named = |words: &mut std::str::Split<'_, char>| {
        key.0.clear();
        key.0.push_str(words.next()?);
        key.0.make_ascii_uppercase();
        key.1.clear();
        key.1.push_str(words.next()?);
        Some(())
    };
    match verb {
        "register" => {
            named(&mut words)?;
            let secs = match words.next()?.parse().ok()? {
                0 => 90,
                secs => secs,
            };
            let status = Status::read(words.next()?)?;
            words.next()?;
            let dirty = match words.next()? {
                "-" => now,
                dirty => dirty.parse().ok()?,
            };
            r.register(key.clone(), status, dirty, secs, now);
            writeln!(out, "204")
        }
        "renew" => {
            named(&mut words)?;
            writeln!(out, "{}", if r.renew(key, now) { "200" } else { "404" })
        }
        "cancel" => {
            named(&mut words)?;
            let held = r.leases.remove(key).is_some();
            if held {
                r.expected = r.expected.saturating_sub(1);
            }
            writeln!(out, "{}", if held { "200" } else { "404" })
        }
        "roll" => {
            r.last = r.since;
            r.since = 0;
            writeln!(out, "last {}", r.last)
        }
        "update" => {
            if r.leases.len() as u64 * 100 > 85 * r.expected {
                r.expected = r.leases.len() as u64;
            }
            writeln!(out, "expected {}", r.expected)
        }
        "evict" => {
            let keys = r.evict(now);
            write!(out, "evicted {}", keys.len()).ok()?;
            for (app, id) in &keys {
                write!(out, " {app} {id}").ok()?;
            }
            writeln!(out)
        }
        "look" => {
            named(&mut words)?;
            match r.leases.get(key) {
                Some(l) if !(r.permitted() && l.updated + 1000 * l.secs < now) => writeln!(
                    out,
                    "found {} UNKNOWN dirty {} secs {} registered {} up {} updated {}",
                    l.status.name(),
                    l.dirty,
                    l.secs,
                    l.registered,
                    l.up,
                    l.updated
                ),
                _ => writeln!(out, "404"),
            }
        }
        "counts" => writeln!(
            out,
            "held {} expected {} threshold {} last {} permitted {}",
            r.leases.len(),
            r.expected,
            r.threshold(),
            r.last,
            if r.permitted() { "yes" } else { "no" }
        ),
        _ => return None,
    }
    .ok()
}

fn main() -> io::Result<()> {
    let mut text = String::new();
    io::stdin().read_to_string(&mut text)?;
    let mut out = BufWriter::new(io::stdout().lock());
    let mut registry = Registry::default();
    let mut key = (String::new(), String::new());
    for (i, line) in text.lines().enumerate() {
        if !line.is_empty() && answer(&mut registry, line, &mut key, &mut out).is_none() {
            out.flush()?;
            eprintln!("line {}: bad line", i + 1);
            std::process::exit(2);
        }
    }
    out.flush()
}
