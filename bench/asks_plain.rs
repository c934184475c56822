//! The plain program that the shared book's speed is compared with: threads that register and renew over one std `Mutex`, each with a
//! log of its own, and a journal of all. No proofs. Build it with `rustc --edition 2021 -O bench/asks_plain.rs`.
//!
//! `asks_plain THREADS BOOKS` opens so many books, one after another; over each, so many threads together take 65,536 steps: each
//! registers an instance of its own and renews it. It prints how many steps were accepted, and whether all logs are the
//! journal's parts.
use std::collections::HashMap;
use std::sync::Mutex;
use std::{env, thread};

const STEPS: u64 = 65_536;

#[derive(Clone, PartialEq, Eq, Hash)]
struct Key {
    app: String,
    id: String,
}

struct Lease {
    secs: u64,
    registered: u64,
    updated: u64,
    host: String,
}

#[derive(Clone, PartialEq)]
enum Command {
    Register { key: Key, secs: u64, host: String },
    Renew { key: Key },
}

#[derive(Clone, Copy, PartialEq)]
enum Reply {
    Registered,
    Done,
    NotFound,
}

struct Entry {
    pass: u64,
    number: u64,
    command: Command,
    moment: u64,
    reply: Reply,
}

struct Logged {
    command: Command,
    moment: u64,
    reply: Reply,
    number: u64,
}

#[derive(Default)]
struct Book {
    leases: HashMap<Key, Lease>,
    since: u64,
    entries: Vec<Entry>,
}

impl Book {
    fn step(&mut self, command: &Command, moment: u64) -> Reply {
        match command {
            Command::Register { key, secs, host } => {
                let lease = Lease { secs: *secs, registered: moment, updated: moment, host: host.clone() };
                self.leases.insert(key.clone(), lease);
                Reply::Registered
            }
            Command::Renew { key } => match self.leases.get_mut(key) {
                Some(lease) => {
                    lease.updated = moment + lease.secs * 1000;
                    self.since += 1;
                    Reply::Done
                }
                None => Reply::NotFound,
            },
        }
    }

    fn apply(&mut self, pass: u64, command: Command, moment: u64) -> Option<(Reply, Logged)> {
        if self.entries.len() as u64 == STEPS {
            return None;
        }
        let reply = self.step(&command, moment);
        let number = self.entries.len() as u64;
        let logged = Logged { command: command.clone(), moment, reply, number };
        self.entries.push(Entry { pass, number, command, moment, reply });
        Some((reply, logged))
    }
}

fn work(book: &Mutex<Book>, pass: u64, times: u64) -> Vec<Logged> {
    let key = Key { app: "A".to_string(), id: format!("i{pass}") };
    let mut log = Vec::new();
    for time in 0..times {
        let command = match time {
            0 => Command::Register { key: key.clone(), secs: 90, host: key.id.clone() },
            _ => Command::Renew { key: key.clone() },
        };
        if let Some((_, logged)) = book.lock().unwrap().apply(pass, command, time) {
            log.push(logged);
        }
    }
    log
}

fn is_settled(book: &Book, logs: &[Vec<Logged>]) -> bool {
    logs.iter().enumerate().all(|(pass, log)| {
        let part: Vec<&Entry> = book.entries.iter().filter(|entry| entry.pass == pass as u64).collect();
        part.len() == log.len()
            && part.iter().zip(log).all(|(entry, logged)| {
                entry.number == logged.number
                    && entry.moment == logged.moment
                    && entry.reply == logged.reply
                    && entry.command == logged.command
            })
    })
}

fn main() {
    let words: Vec<u64> = env::args().skip(1).map(|word| word.parse().unwrap()).collect();
    let (threads, books) = (words[0], words[1]);
    let mut steps = 0;
    let mut settled = true;
    for _ in 0..books {
        let book = Mutex::new(Book::default());
        let lock = &book;
        let logs: Vec<Vec<Logged>> = thread::scope(|scope| {
            let workers: Vec<_> = (0..threads).map(|pass| scope.spawn(move || work(lock, pass, STEPS / threads))).collect();
            workers.into_iter().map(|worker| worker.join().unwrap()).collect()
        });
        let book = book.into_inner().unwrap();
        steps += book.entries.len();
        settled = settled && is_settled(&book, &logs);
        assert!(book.leases.values().all(|lease| lease.registered == 0 && !lease.host.is_empty()));
    }
    println!("{steps} steps, settled {}", if settled { "yes" } else { "no" });
}
