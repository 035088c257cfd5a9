//! The mark for the program's times: the same commands, byte for byte, as a good engineer would
//! write them without proofs, over std alone. `benches/run` compares outputs and times.
//!
//! It reads valid traces, and policies in the part of TOML that the benchmark's have: `[[line]]`,
//! and in each row one key with a text, a number or an array of texts. What it can't read it
//! refuses without the product's words; the limit of entries it refuses as the product does.

mod cube;
mod cutting;
mod gateways;
mod index;
mod judging;
mod narrowing;
mod policy;
mod text;
mod views;

use judging::Fault;
use policy::Direction;
use std::fs;
use std::io::{self, Write};
use std::process::ExitCode;

fn main() -> ExitCode {
    let words: Vec<String> = std::env::args().skip(1).collect();
    let words: Vec<&str> = words.iter().map(String::as_str).collect();
    let result = match words[..] {
        ["judge", policy, trace] => judge(policy, trace),
        ["decorrelate", limit, policy] => decorrelate(limit, policy),
        ["audit", limit, policy_a, policy_b] => audit(limit, policy_a, policy_b),
        ["check", most, policy_a, policy_b, text] => check(most, policy_a, policy_b, text),
        ["narrow", limit, policy, proposal] => narrow(limit, policy, proposal),
        _ => Err(usage()),
    };
    match result {
        Ok(is_yes) => ExitCode::from(u8::from(!is_yes)),
        Err(refusal) => {
            eprintln!("error: {}", refusal.message);
            ExitCode::from(refusal.status)
        }
    }
}

struct Refusal {
    status: u8,
    message: String,
}

impl From<io::Error> for Refusal {
    fn from(error: io::Error) -> Refusal {
        Refusal {
            status: 7,
            message: error.to_string(),
        }
    }
}

// Each command says whether it ends with status 0, and else with 1.

fn judge(policy: &str, trace: &str) -> Result<bool, Refusal> {
    let policy = load(2, policy)?;
    let lines = read_policy(2, &policy)?;
    let mut trace = fs::File::open(trace).map_err(|_| unread(3))?;
    let mut out = Out::new()?;
    let judged = judging::judge(&lines, &mut trace, &mut out);
    out.flush()?;
    judged.map(|()| true).map_err(|fault| match fault {
        Fault::Line(line) => Refusal {
            status: 4,
            message: format!("trace line {line}"),
        },
        Fault::Read => unread(3),
        Fault::Write(error) => error.into(),
    })
}

fn decorrelate(limit: &str, policy: &str) -> Result<bool, Refusal> {
    let limit = limit.parse().map_err(|_| usage())?;
    let policy = load(3, policy)?;
    let lines = read_policy(3, &policy)?;
    let outbound = cut(3, &lines, Direction::Outbound, limit)?;
    let inbound = cut(3, &lines, Direction::Inbound, limit)?;
    let mut out = Out::new()?;
    views::write(&lines, &outbound, &inbound, &mut out)?;
    out.flush()?;
    Ok(true)
}

/// Cuts both policies for the limit alone.
fn audit(limit: &str, policy_a: &str, policy_b: &str) -> Result<bool, Refusal> {
    let limit = limit.parse().map_err(|_| usage())?;
    let policy_a = load(3, policy_a)?;
    let a = read_policy(3, &policy_a)?;
    cut(3, &a, Direction::Outbound, limit)?;
    let policy_b = load(4, policy_b)?;
    let b = read_policy(4, &policy_b)?;
    cut(4, &b, Direction::Inbound, limit)?;
    let (text, is_agreed) = gateways::audit(&a, &b);
    write(text)?;
    Ok(is_agreed)
}

fn check(most: &str, policy_a: &str, policy_b: &str, text: &str) -> Result<bool, Refusal> {
    let most: usize = most.parse().map_err(|_| usage())?;
    let policy_a = load(3, policy_a)?;
    let a = read_policy(3, &policy_a)?;
    let policy_b = load(4, policy_b)?;
    let b = read_policy(4, &policy_b)?;
    let text = load(5, text)?;
    let refused = |message: &str| Refusal {
        status: 4,
        message: message.into(),
    };
    if most < text.len() {
        return Err(refused("word 5: too long"));
    }
    let found = gateways::check(&a, &b, &text);
    let (found, is_accepted) = found.ok_or_else(|| refused("certificate"))?;
    write(found)?;
    Ok(is_accepted)
}

fn narrow(limit: &str, policy: &str, proposal: &str) -> Result<bool, Refusal> {
    let limit = limit.parse().map_err(|_| usage())?;
    let policy = load(3, policy)?;
    let lines = read_policy(3, &policy)?;
    let outbound = cut(3, &lines, Direction::Outbound, limit)?;
    let inbound = cut(3, &lines, Direction::Inbound, limit)?;
    let proposal = load(4, proposal)?;
    let found = narrowing::narrow(&lines, &outbound, &inbound, &proposal);
    let (text, is_acceptable) = found.ok_or_else(|| Refusal {
        status: 4,
        message: "proposal".into(),
    })?;
    write(text)?;
    Ok(is_acceptable)
}

fn cut(
    word: usize,
    lines: &[policy::Line],
    direction: Direction,
    limit: usize,
) -> Result<cutting::Entries, Refusal> {
    cutting::decorrelate(lines, direction, limit).map_err(|line| Refusal {
        status: 5,
        message: format!("word {word}: entry limit: {} line {line}", direction.word()),
    })
}

fn write(text: Vec<u8>) -> io::Result<()> {
    let mut out = Out::new()?;
    out.text = text;
    out.flush()
}

fn usage() -> Refusal {
    Refusal {
        status: 2,
        message: "usage".into(),
    }
}

fn load(word: usize, name: &str) -> Result<Vec<u8>, Refusal> {
    fs::read(name).map_err(|_| unread(word))
}

fn unread(word: usize) -> Refusal {
    Refusal {
        status: 6,
        message: format!("word {word}: cannot read"),
    }
}

fn read_policy(word: usize, text: &[u8]) -> Result<Vec<policy::Line<'_>>, Refusal> {
    let refused = |row| Refusal {
        status: 3,
        message: format!("word {word}: policy: row {row}"),
    };
    policy::read(text).map_err(refused)
}

/// Standard output through one buffer, without the look for line ends that std's own has.
pub struct Out {
    pub text: Vec<u8>,
    file: fs::File,
}

impl Out {
    const BLOCK: usize = 65_536;

    fn new() -> io::Result<Out> {
        use std::os::fd::AsFd;
        let file = io::stdout().as_fd().try_clone_to_owned()?.into();
        Ok(Out {
            text: Vec::with_capacity(2 * Out::BLOCK),
            file,
        })
    }

    /// Writes what waits, once there is a block of it. Called at the end of each line.
    pub fn end_line(&mut self) -> io::Result<()> {
        if self.text.len() < Out::BLOCK {
            Ok(())
        } else {
            self.flush()
        }
    }

    fn flush(&mut self) -> io::Result<()> {
        self.file.write_all(&self.text)?;
        self.text.clear();
        Ok(())
    }
}
