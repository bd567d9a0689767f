//! caller replay|clear: prints for the journal on standard input the output of `dam`, with its status, by the library.

use std::fs::File;
use std::io::{Read, Write, stderr, stdin, stdout};

const MOST_NODES: u32 = 67_108_864;
const MOST_ANSWER: usize = 300_000;

#[repr(C)]
struct Answer {
    status: u8,
    length: usize,
}

unsafe extern "C" {
    fn dam_replay_seeded(
        secret: *const u8,
        secret_length: usize,
        text: *const u8,
        text_length: usize,
        buffer: *mut u8,
        buffer_length: usize,
    ) -> Answer;
    fn dam_clear_seeded(
        secret: *const u8,
        secret_length: usize,
        text: *const u8,
        text_length: usize,
        nodes: u32,
        buffer: *mut u8,
        buffer_length: usize,
    ) -> Answer;
}

/// The status and the whole answer.
fn answer(replays: bool, text: &[u8]) -> std::io::Result<(u8, Vec<u8>)> {
    let (mut secret, mut buffer) = ([0; 16], vec![0; MOST_ANSWER]);
    File::open("/dev/urandom")?.read_exact(&mut secret)?;
    let (key, from, to) = (secret.as_ptr(), text.as_ptr(), buffer.as_mut_ptr());
    let found = match replays {
        true => unsafe { dam_replay_seeded(key, secret.len(), from, text.len(), to, MOST_ANSWER) },
        false => unsafe { dam_clear_seeded(key, secret.len(), from, text.len(), MOST_NODES, to, MOST_ANSWER) },
    };
    buffer.truncate(found.length);
    Ok((found.status, buffer))
}

fn main() -> std::io::Result<()> {
    let mut text = Vec::new();
    stdin().read_to_end(&mut text)?;
    let replays = std::env::args().nth(1).as_deref() == Some("replay");
    let (status, shown) = answer(replays, &text)?;
    match status {
        0 => stdout().write_all(&shown)?,
        _ => stderr().write_all(&shown)?,
    }
    std::process::exit(status.into())
}
