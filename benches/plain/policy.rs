//! The lines of a policy, and their reader.

use crate::cube::{Address, Number, Range, OPAQUE_FIELD, OPAQUE_PROTOCOL};
use crate::text;

#[derive(Clone, Copy, PartialEq, Eq)]
pub enum Direction {
    Outbound,
    Inbound,
}

pub const DIRECTIONS: [Direction; 2] = [Direction::Outbound, Direction::Inbound];

impl Direction {
    pub fn word(self) -> &'static str {
        match self {
            Direction::Outbound => "out",
            Direction::Inbound => "in",
        }
    }
}

/// A line, its selectors as ranges in the order of their items.
pub struct Line<'a> {
    pub name: &'a str,
    action: Action<'a>,
    only: Option<Direction>,
    pub four: Networks<u32>,
    pub six: Networks<u128>,
    pub protocol: Range<u16>,
    pub local_fields: Vec<Range<u32>>,
    pub remote_fields: Vec<Range<u32>>,
    pub flags: Flags,
}

enum Action<'a> {
    Pass(&'a str),
    Transport(&'a str),
    Tunnel {
        ipsec: &'a str,
        local: &'a str,
        remote: &'a str,
    },
}

/// The address selectors of a line in one family.
#[derive(Default)]
pub struct Networks<A> {
    pub local: Vec<Range<A>>,
    pub remote: Vec<Range<A>>,
}

/// The populate-from-packet flags that can be without a value.
pub struct Flags {
    pub protocol: bool,
    pub local_field: bool,
    pub remote_field: bool,
}

impl Line<'_> {
    pub fn has_direction(&self, direction: Direction) -> bool {
        self.only.is_none_or(|only| only == direction)
    }

    pub fn protects(&self) -> bool {
        !matches!(self.action, Action::Pass(_))
    }

    /// Whether a flagged selector has no value at these values.
    pub fn lacks_flagged(&self, protocol: u16, local_field: u32, remote_field: u32) -> bool {
        self.flags.protocol && protocol == OPAQUE_PROTOCOL
            || self.flags.local_field && local_field == OPAQUE_FIELD
            || self.flags.remote_field && remote_field == OPAQUE_FIELD
    }

    /// The end of an output line: the line's judgement and its name.
    pub fn verdict(&self, direction: Direction) -> Vec<u8> {
        let mut text = self.judgement(direction);
        text.extend_from_slice(format!(" {}\n", self.name).as_bytes());
        text
    }

    pub fn judgement(&self, direction: Direction) -> Vec<u8> {
        let mut text = Vec::new();
        match &self.action {
            Action::Pass(word) => text.extend_from_slice(word.as_bytes()),
            Action::Transport(ipsec) => {
                text.extend_from_slice(format!("protect {ipsec} transport").as_bytes())
            }
            Action::Tunnel {
                ipsec,
                local,
                remote,
            } => {
                text.extend_from_slice(format!("protect {ipsec} tunnel ").as_bytes());
                let outbound = direction == Direction::Outbound;
                let (first, second) = if outbound {
                    (local, remote)
                } else {
                    (remote, local)
                };
                put_gate(&mut text, first);
                text.push(b' ');
                put_gate(&mut text, second);
            }
        }
        text
    }

    /// The same where a flagged selector has no value.
    pub fn discard(&self) -> Vec<u8> {
        format!("discard {}\n", self.name).into_bytes()
    }
}

pub const FINAL: &[u8] = b"discard final\n";

fn put_gate(text: &mut Vec<u8>, gate: &str) {
    if let Some(address) = text::address4(gate.as_bytes()) {
        address.put(text);
    } else if let Some(address) = text::address6(gate.as_bytes()) {
        address.put(text);
    }
}

/// The lines of a policy; where a row can't be read, its number, or that of the next line's head.
pub fn read(policy: &[u8]) -> Result<Vec<Line<'_>>, usize> {
    let policy = std::str::from_utf8(policy).map_err(|_| 0usize)?;
    let mut lines = Vec::new();
    let mut keys: Option<Keys> = None;
    let mut rows = 0;
    for row in policy.lines() {
        rows += 1;
        if row == "[[line]]" {
            if let Some(keys) = keys.replace(Keys::any()) {
                lines.push(keys.line().ok_or(rows)?);
            }
        } else if let Some((key, value)) = row.split_once(" = ") {
            match &mut keys {
                Some(keys) => keys.put(key, value).ok_or(rows)?,
                None if (key, value) == ("format", "1") => {}
                None => return Err(rows),
            }
        } else if !row.is_empty() {
            return Err(rows);
        }
    }
    if let Some(keys) = keys {
        lines.push(keys.line().ok_or(rows)?);
    }
    Ok(lines)
}

/// What a line's keys say, `any` and no flag where they don't stand.
#[derive(Default)]
struct Keys<'a> {
    name: &'a str,
    action: &'a str,
    direction: &'a str,
    ipsec: &'a str,
    mode: &'a str,
    gate_local: &'a str,
    gate_remote: &'a str,
    protocol: &'a str,
    local: Vec<&'a str>,
    remote: Vec<&'a str>,
    local_port: Vec<&'a str>,
    remote_port: Vec<&'a str>,
    pfp: Vec<&'a str>,
}

impl<'a> Keys<'a> {
    fn any() -> Self {
        Keys {
            direction: "both",
            protocol: "any",
            local: vec!["any"],
            remote: vec!["any"],
            local_port: vec!["any"],
            remote_port: vec!["any"],
            ..Keys::default()
        }
    }

    fn put(&mut self, key: &str, value: &'a str) -> Option<()> {
        let texts = || value.trim_matches(['[', ']']).split(',').map(unquoted);
        match key {
            "name" => self.name = unquoted(value),
            "action" => self.action = unquoted(value),
            "direction" => self.direction = unquoted(value),
            "ipsec" => self.ipsec = unquoted(value),
            "mode" => self.mode = unquoted(value),
            "gate_local" => self.gate_local = unquoted(value),
            "gate_remote" => self.gate_remote = unquoted(value),
            "protocol" => self.protocol = unquoted(value),
            "local" => self.local = texts().collect(),
            "remote" => self.remote = texts().collect(),
            "local_port" => self.local_port = texts().collect(),
            "remote_port" => self.remote_port = texts().collect(),
            "pfp" => self.pfp = texts().collect(),
            _ => return None,
        }
        Some(())
    }

    fn line(&self) -> Option<Line<'a>> {
        let mut line = Line {
            name: self.name,
            action: self.action()?,
            only: match self.direction {
                "out" => Some(Direction::Outbound),
                "in" => Some(Direction::Inbound),
                _ => None,
            },
            four: Networks::default(),
            six: Networks::default(),
            protocol: protocols(self.protocol)?,
            local_fields: self
                .local_port
                .iter()
                .map(|item| fields(item))
                .collect::<Option<_>>()?,
            remote_fields: self
                .remote_port
                .iter()
                .map(|item| fields(item))
                .collect::<Option<_>>()?,
            flags: Flags {
                protocol: self.pfp.contains(&"protocol"),
                local_field: self.pfp.contains(&"local_port"),
                remote_field: self.pfp.contains(&"remote_port"),
            },
        };
        put_networks(&self.local, &mut line.four.local, &mut line.six.local)?;
        put_networks(&self.remote, &mut line.four.remote, &mut line.six.remote)?;
        Some(line)
    }

    fn action(&self) -> Option<Action<'a>> {
        let (local, remote) = (self.gate_local, self.gate_remote);
        match (self.action, self.mode) {
            ("discard" | "bypass", _) => Some(Action::Pass(self.action)),
            ("protect", "transport") => Some(Action::Transport(self.ipsec)),
            ("protect", "tunnel") => Some(Action::Tunnel {
                ipsec: self.ipsec,
                local,
                remote,
            }),
            _ => None,
        }
    }
}

fn unquoted(text: &str) -> &str {
    text.trim().trim_matches('"')
}

fn protocols(item: &str) -> Option<Range<u16>> {
    match item {
        "any" => Some(Range::new(0, OPAQUE_PROTOCOL)),
        "opaque" => Some(Range::new(OPAQUE_PROTOCOL, OPAQUE_PROTOCOL)),
        _ => {
            let number = text::number(item.as_bytes(), 255)? as u16;
            Some(Range::new(number, number))
        }
    }
}

fn fields(item: &str) -> Option<Range<u32>> {
    match item {
        "any" => return Some(Range::new(0, OPAQUE_FIELD)),
        "opaque" => return Some(Range::new(OPAQUE_FIELD, OPAQUE_FIELD)),
        _ => {}
    }
    let (first, last) = item.split_once('-').unwrap_or((item, item));
    Some(Range::new(field(first, "0")?, field(last, "255")?))
}

/// A number, or a type and a code, where `any` is this code.
fn field(item: &str, any: &str) -> Option<u32> {
    match item.split_once('/') {
        None => text::number(item.as_bytes(), 65_535),
        Some((kind, code)) => {
            let code = if code == "any" { any } else { code };
            let kind = text::number(kind.as_bytes(), 255)?;
            Some(256 * kind + text::number(code.as_bytes(), 255)?)
        }
    }
}

fn put_networks(
    items: &[&str],
    four: &mut Vec<Range<u32>>,
    six: &mut Vec<Range<u128>>,
) -> Option<()> {
    for item in items {
        if *item == "any" {
            four.push(Range::new(u32::FIRST, u32::LAST));
            six.push(Range::new(u128::FIRST, u128::LAST));
        } else if item.contains(':') {
            let hosts = |length| u128::MAX.checked_shr(length).unwrap_or(0);
            let (first, last, length) = network(item, text::address6)?;
            six.push(Range::new(first & !hosts(length?), last | hosts(length?)));
        } else {
            let hosts = |length| u32::MAX.checked_shr(length).unwrap_or(0);
            let (first, last, length) = network(item, text::address4)?;
            four.push(Range::new(first & !hosts(length?), last | hosts(length?)));
        }
    }
    Some(())
}

/// The two ends of an address item, and the length of its prefix.
fn network<A: Address>(item: &str, read: fn(&[u8]) -> Option<A>) -> Option<(A, A, Option<u32>)> {
    let whole = if A::IS_SIX { 128 } else { 32 };
    if let Some((base, length)) = item.split_once('/') {
        let base = read(base.as_bytes())?;
        return Some((base, base, text::number(length.as_bytes(), whole)));
    }
    let (first, last) = item.split_once('-').unwrap_or((item, item));
    Some((read(first.as_bytes())?, read(last.as_bytes())?, Some(whole)))
}
