//! The work of `dam replay`, as a plain Rust program with std only, with which `dam` is compared.
//!
//! It prints the same replies, and fails if its input isn't a journal of hourly orders. With the word `day` it does the work of `dam day`
//! before the clearing: one thread for each participant enters its commands under a `Mutex`, and the journal that they made is compared
//! with the answers to the threads, and printed.

mod journal;

use std::collections::{BTreeSet, HashMap};
use std::env;
use std::fmt::Write as _;
use std::io::{self, Read, Write};
use std::sync::Mutex;
use std::thread;

use journal::limits::MOST_HOURLY;
use journal::{Command, HourOrder, Key, MOST_BYTES, read_journal};

impl Command {
    fn participant(&self) -> Option<&str> {
        match self {
            Command::Submit((who, _), _) | Command::Cancel((who, _)) => Some(who),
            Command::Close => None,
        }
    }
}

#[derive(Clone, Copy, Debug, PartialEq, Eq)]
enum Reason {
    Closed,
    PeriodOutOfDay,
    NameTaken,
    UnknownOrder,
    HourlyFull,
}

/// The orders by participant and name, and their keys in book order; a cancelled one leaves a gap.
struct Book {
    periods: u8,
    places: HashMap<Key, (usize, HourOrder)>,
    order: Vec<Option<Key>>,
    closed: bool,
}

impl Book {
    fn new(periods: u8) -> Book {
        Book { periods, places: HashMap::new(), order: Vec::new(), closed: false }
    }

    fn apply(&mut self, command: &Command) -> Result<(), Reason> {
        if self.closed {
            return Err(Reason::Closed);
        }
        match command {
            Command::Submit(key, order) => self.submit(key, order)?,
            Command::Cancel(key) => {
                let (place, _) = self.places.remove(key).ok_or(Reason::UnknownOrder)?;
                self.order[place] = None;
            }
            Command::Close => self.closed = true,
        }
        Ok(())
    }

    fn submit(&mut self, key: &Key, order: &HourOrder) -> Result<(), Reason> {
        if order.period > self.periods {
            return Err(Reason::PeriodOutOfDay);
        }
        if self.places.contains_key(key) {
            return Err(Reason::NameTaken);
        }
        if self.places.len() >= MOST_HOURLY {
            return Err(Reason::HourlyFull);
        }
        self.places.insert(key.clone(), (self.order.len(), *order));
        self.order.push(Some(key.clone()));
        Ok(())
    }
}

fn replies(periods: u8, commands: &[Command]) -> String {
    let mut book = Book::new(periods);
    let mut text = format!("day,{periods}\n");
    for (number, command) in (1..).zip(commands) {
        let written = match book.apply(command) {
            Ok(()) => writeln!(text, "{number},done"),
            Err(reason) => writeln!(text, "{number},refused,{reason:?}"),
        };
        debug_assert!(written.is_ok());
    }
    text
}

/// A command that came to the book, with the reply to it.
#[derive(Clone, PartialEq, Eq)]
struct Entry {
    number: usize,
    command: Command,
    reply: Result<(), Reason>,
}

/// The state that the lock protects.
struct Gate {
    book: Book,
    entries: Vec<Entry>,
}

impl Gate {
    fn call(&mut self, command: &Command) -> Entry {
        let reply = self.book.apply(command);
        let entry = Entry { number: self.entries.len() + 1, command: command.clone(), reply };
        self.entries.push(entry.clone());
        entry
    }
}

/// The entries that answered each participant's commands, all entered at the same time, and then the close.
fn enter(gate: &Mutex<Gate>, commands: &[Command]) -> Vec<Entry> {
    let own = |who| move |command: &&Command| command.participant() == Some(who);
    let mut receipts: Vec<Entry> = thread::scope(|scope| {
        let participants: BTreeSet<&str> = commands.iter().filter_map(Command::participant).collect();
        let started: Vec<_> = participants
            .into_iter()
            .map(|who| {
                scope.spawn(move || -> Vec<Entry> {
                    let given = commands.iter().filter(own(who));
                    given.map(|command| gate.lock().unwrap().call(command)).collect()
                })
            })
            .collect();
        started.into_iter().flat_map(|entered| entered.join().unwrap()).collect()
    });
    receipts.push(gate.lock().unwrap().call(&Command::Close));
    receipts
}

/// The journal of a day, whose entries must be the answers to the participants.
fn journal_of_day(periods: u8, commands: &[Command]) -> String {
    let gate = Mutex::new(Gate { book: Book::new(periods), entries: Vec::new() });
    let receipts = enter(&gate, commands);
    let entries = gate.into_inner().unwrap().entries;
    assert_eq!(receipts.len(), entries.len());
    assert!(receipts.iter().all(|receipt| entries[receipt.number - 1] == *receipt));
    let mut text = format!("day,{periods},,,,,,,\n");
    for entry in &entries {
        write!(text, "{}", entry.command).expect("room");
    }
    text
}

fn main() {
    let mut text = Vec::new();
    io::stdin().lock().take(MOST_BYTES as u64 + 1).read_to_end(&mut text).expect("an input");
    let (periods, commands) = read_journal(&text).expect("a journal");
    let is_day = env::args().nth(1).as_deref() == Some("day");
    let printed = if is_day { journal_of_day(periods, &commands) } else { replies(periods, &commands) };
    io::stdout().lock().write_all(printed.as_bytes()).expect("an output");
}
