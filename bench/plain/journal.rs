//! The journals of `dam`, without amends and blocks.

use std::fmt::{self, Display};
use std::iter;

/// The limits, as the code of `dam` has them.
#[allow(dead_code)]
#[path = "../../crates/dam_book/src/limits.rt"]
pub mod limits;

use limits::{HIGHEST_PRICE, LOWEST_PRICE, MOST_ENTRIES};

pub const MOST_BYTES: usize = 16_777_216;
const MOST_RECORDS: usize = MOST_ENTRIES + 1;
const LAST_PERIOD: u32 = 100;

type Fields = [Vec<u8>; 9];

#[derive(Clone, Copy, PartialEq, Eq)]
pub struct HourOrder {
    pub sells: bool,
    pub price: i32,
    pub period: u8,
    pub volume: u32,
}

pub type Key = (String, String);

#[derive(Clone, PartialEq, Eq)]
pub enum Command {
    Submit(Key, HourOrder),
    Cancel(Key),
    Close,
}

impl Display for Command {
    fn fmt(&self, f: &mut fmt::Formatter<'_>) -> fmt::Result {
        match self {
            Command::Submit((who, name), order) => {
                let HourOrder { sells, price, period, volume } = order;
                let side = if *sells { "sell" } else { "buy" };
                writeln!(f, "submit,{who},{name},hour,{side},{price},{period}:{volume},,")
            }
            Command::Cancel((who, name)) => writeln!(f, "cancel,{who},{name},,,,,,"),
            Command::Close => writeln!(f, "close,,,,,,,,"),
        }
    }
}

/// The fields of the next record, at whose end the place is then; `None` if no record is left.
fn next_record(text: &[u8], at: &mut usize) -> Option<Vec<Vec<u8>>> {
    *at += text[*at..].iter().position(|byte| !matches!(byte, b'\n' | b'\r'))?;
    let mut fields = vec![Vec::new()];
    let (mut quoted, mut fresh) = (false, true);
    while let Some(&byte) = text.get(*at) {
        *at += 1;
        let field = fields.last_mut()?;
        match byte {
            b'"' if quoted && text.get(*at) == Some(&b'"') => {
                field.push(byte);
                *at += 1;
            }
            b'"' if quoted => quoted = false,
            _ if quoted => field.push(byte),
            b'"' if fresh => quoted = true,
            b',' => fields.push(Vec::new()),
            b'\n' | b'\r' => break,
            _ => field.push(byte),
        }
        fresh = byte == b',' && !quoted;
    }
    Some(fields)
}

/// A decimal number without leading zeros.
fn number(text: &[u8]) -> Option<u32> {
    let plain = text == b"0" || !text.starts_with(b"0");
    if text.is_empty() || !plain || !text.iter().all(u8::is_ascii_digit) {
        return None;
    }
    std::str::from_utf8(text).ok()?.parse().ok()
}

fn price(text: &[u8]) -> Option<i32> {
    let value = match text.strip_prefix(b"-") {
        Some(digits) => -i32::try_from(number(digits).filter(|n| *n > 0)?).ok()?,
        None => i32::try_from(number(text)?).ok()?,
    };
    Some(value).filter(|cents| (LOWEST_PRICE..=HIGHEST_PRICE).contains(cents))
}

fn pair(text: &[u8]) -> Option<(u8, u32)> {
    let colon = text.iter().position(|byte| *byte == b':')?;
    let period = number(&text[..colon]).filter(|n| (1..=LAST_PERIOD).contains(n))?;
    let volume = number(&text[colon + 1..]).filter(|n| (1..=99_999).contains(n))?;
    Some((period as u8, volume))
}

fn word(text: &[u8], most: usize, is_fine: impl Fn(u8) -> bool) -> Option<String> {
    let fits = !text.is_empty() && text.len() <= most && text.iter().all(|byte| is_fine(*byte));
    fits.then(|| String::from_utf8_lossy(text).into_owned())
}

/// A participant and the name of an order.
fn key(fields: &Fields) -> Option<Key> {
    let who = word(&fields[1], 8, |byte| byte.is_ascii_uppercase())?;
    let name = word(&fields[2], 12, |byte| byte.is_ascii_uppercase() || byte.is_ascii_digit() || byte == b'-')?;
    Some((who, name))
}

fn order(fields: &Fields) -> Option<HourOrder> {
    let (sells, price) = (fields[4] == b"sell", price(&fields[5])?);
    let (period, volume) = pair(&fields[6])?;
    (fields[3] == b"hour" && (sells || fields[4] == b"buy")).then_some(HourOrder { sells, price, period, volume })
}

/// The command of a record; `None` if a field breaks a rule.
fn command(fields: &Fields) -> Option<Command> {
    let (command, used) = match fields[0].as_slice() {
        b"submit" => (Command::Submit(key(fields)?, order(fields)?), 7),
        b"cancel" => (Command::Cancel(key(fields)?), 3),
        b"close" => (Command::Close, 1),
        _ => return None,
    };
    fields[used..].iter().all(Vec::is_empty).then_some(command)
}

/// The number of periods of a day, in its record.
fn day(fields: &Fields) -> Option<u8> {
    let periods = number(&fields[1]).filter(|n| matches!(n, 23..=25 | 92 | 96 | 100))?;
    (fields[0] == b"day" && fields[2..].iter().all(Vec::is_empty)).then_some(periods as u8)
}

/// The number of periods and the commands; `None` if the text breaks a rule.
pub fn read_journal(text: &[u8]) -> Option<(u8, Vec<Command>)> {
    if text.len() > MOST_BYTES || !text.is_ascii() {
        return None;
    }
    let mut at = 0;
    let mut records = iter::from_fn(|| next_record(text, &mut at)).map(|fields| Fields::try_from(fields).ok());
    let periods = day(&records.next()??)?;
    let commands = records.map(|fields| command(&fields?)).collect::<Option<Vec<_>>>()?;
    (commands.len() < MOST_RECORDS).then_some((periods, commands))
}
