//! The verdicts of a trace.

use crate::cube::{Number, Range, OPAQUE_FIELD, OPAQUE_PROTOCOL};
use crate::index::{common, Axis};
use crate::policy::{Direction, Line, Networks, DIRECTIONS, FINAL};
use crate::text::{address4, address6, number, put_number};
use crate::Out;
use std::io::{self, Read};

/// The bytes of a trace that are read at once, among them the longest line.
const BLOCK: usize = 65_536;

/// Why a trace isn't judged to its end.
pub enum Fault {
    /// The line of this number can't be read.
    Line(u32),
    Read,
    Write(io::Error),
}

/// Writes the verdict of each packet of a trace, which is read in blocks.
pub fn judge(lines: &[Line], trace: &mut impl Read, out: &mut Out) -> Result<(), Fault> {
    let mut judges = Judges {
        lines,
        judges: [None, None],
        count: 0,
    };
    let mut block = vec![0; BLOCK];
    let mut kept = 0;
    loop {
        let taken = trace.read(&mut block[kept..]).map_err(|_| Fault::Read)?;
        let read = &block[..kept + taken];
        let whole = match read.iter().rposition(|byte| *byte == b'\n') {
            Some(last) => last + 1,
            None if taken == 0 || kept + taken == BLOCK => read.len(),
            None => 0,
        };
        for line in read[..whole].split_inclusive(|byte| *byte == b'\n') {
            judges.judge_line(line.strip_suffix(b"\n").unwrap_or(line), out)?;
        }
        if taken == 0 {
            return Ok(());
        }
        let read = kept + taken;
        block.copy_within(whole..read, 0);
        kept = read - whole;
    }
}

/// The judges of both directions, each made at its first packet.
struct Judges<'a> {
    lines: &'a [Line<'a>],
    judges: [Option<Judge<'a>>; 2],
    /// The lines of the trace so far.
    count: u32,
}

impl Judges<'_> {
    fn judge_line(&mut self, line: &[u8], out: &mut Out) -> Result<(), Fault> {
        self.count += 1;
        let mut words = Words {
            rest: line.strip_suffix(b"\r").unwrap_or(line),
        };
        match words.next() {
            None => return Ok(()),
            Some(word) if word.starts_with(b"#") => return Ok(()),
            Some(b"pkt") => {}
            Some(_) => return Err(Fault::Line(self.count)),
        }
        let (direction, packet) = read_packet(&mut words).ok_or(Fault::Line(self.count))?;
        let judge = self.judges[direction as usize]
            .get_or_insert_with(|| Judge::new(self.lines, direction));
        put_number(&mut out.text, self.count);
        out.text.push(b' ');
        out.text.extend_from_slice(judge.verdict(&packet));
        out.end_line().map_err(Fault::Write)
    }
}

/// A packet as the policy sees it.
struct Packet {
    addresses: Addresses,
    protocol: u16,
    local_field: u32,
    remote_field: u32,
}

enum Addresses {
    Four { local: u32, remote: u32 },
    Six { local: u128, remote: u128 },
}

/// What judges the packets of a direction: an index over the lines, and their texts.
struct Judge<'a> {
    lines: &'a [Line<'a>],
    four: Index<u32>,
    six: Index<u128>,
    verdicts: Vec<Vec<u8>>,
    discards: Vec<Vec<u8>>,
}

struct Index<A> {
    local: Axis<A>,
    remote: Axis<A>,
}

impl<A: Number> Index<A> {
    fn new(
        lines: &[Line],
        direction: Direction,
        of: for<'a> fn(&'a Line) -> &'a Networks<A>,
    ) -> Self {
        let networks = lines
            .iter()
            .map(|line| line.has_direction(direction).then(|| of(line)));
        let local = networks
            .clone()
            .map(|line| line.map_or(&[][..], |line| &line.local));
        let remote = networks.map(|line| line.map_or(&[][..], |line| &line.remote));
        Index {
            local: Axis::new(local),
            remote: Axis::new(remote),
        }
    }

    /// The lines of the direction that select both addresses, in order.
    fn lines(&self, local: A, remote: A) -> impl Iterator<Item = usize> + '_ {
        common(self.local.row(local), self.remote.row(remote))
    }
}

impl<'a> Judge<'a> {
    fn new(lines: &'a [Line], direction: Direction) -> Self {
        Judge {
            lines,
            four: Index::new(lines, direction, |line| &line.four),
            six: Index::new(lines, direction, |line| &line.six),
            verdicts: lines.iter().map(|line| line.verdict(direction)).collect(),
            discards: lines.iter().map(|line| line.discard()).collect(),
        }
    }

    /// The judgement and the name of the first line that selects the packet.
    fn verdict(&self, packet: &Packet) -> &[u8] {
        let selects = |place: &usize| selects(&self.lines[*place], packet);
        let first = match packet.addresses {
            Addresses::Four { local, remote } => self.four.lines(local, remote).find(selects),
            Addresses::Six { local, remote } => self.six.lines(local, remote).find(selects),
        };
        let Some(place) = first else { return FINAL };
        let Packet {
            protocol,
            local_field,
            remote_field,
            ..
        } = *packet;
        if self.lines[place].lacks_flagged(protocol, local_field, remote_field) {
            &self.discards[place]
        } else {
            &self.verdicts[place]
        }
    }
}

/// Whether a line that selects the addresses selects the rest.
fn selects(line: &Line, packet: &Packet) -> bool {
    let have = |ranges: &[Range<u32>], field| ranges.iter().any(|range| range.has(field));
    line.protocol.has(packet.protocol)
        && have(&line.local_fields, packet.local_field)
        && have(&line.remote_fields, packet.remote_field)
}

/// The words of a line that are left.
struct Words<'a> {
    rest: &'a [u8],
}

impl<'a> Iterator for Words<'a> {
    type Item = &'a [u8];

    fn next(&mut self) -> Option<&'a [u8]> {
        let first = self.rest.iter().position(|byte| *byte != b' ')?;
        let begun = &self.rest[first..];
        let length = begun
            .iter()
            .position(|byte| *byte == b' ')
            .unwrap_or(begun.len());
        let (word, rest) = begun.split_at(length);
        self.rest = rest;
        Some(word)
    }
}

/// The words behind `pkt`.
fn read_packet(words: &mut Words) -> Option<(Direction, Packet)> {
    let direction = words.next()?;
    let direction = DIRECTIONS
        .into_iter()
        .find(|known| known.word().as_bytes() == direction)?;
    let (source, destination) = (words.next()?, words.next()?);
    let protocol = match words.next()? {
        b"opaque" => OPAQUE_PROTOCOL,
        word => number(word, 255)? as u16,
    };
    let fields = (
        field(words.next()?, protocol)?,
        field(words.next()?, protocol)?,
    );
    if words.next().is_some() || !shows(protocol, fields) {
        return None;
    }
    let ((local, remote), (local_field, remote_field)) = match direction {
        Direction::Outbound => ((source, destination), fields),
        Direction::Inbound => ((destination, source), (fields.1, fields.0)),
    };
    let addresses = if source.contains(&b':') {
        Addresses::Six {
            local: address6(local)?,
            remote: address6(remote)?,
        }
    } else if protocol < OPAQUE_PROTOCOL {
        Addresses::Four {
            local: address4(local)?,
            remote: address4(remote)?,
        }
    } else {
        return None;
    };
    Some((
        direction,
        Packet {
            addresses,
            protocol,
            local_field,
            remote_field,
        },
    ))
}

fn field(word: &[u8], protocol: u16) -> Option<u32> {
    if word == b"opaque" {
        return Some(OPAQUE_FIELD);
    }
    if !matches!(protocol, 1 | 58) {
        return number(word, 65_535);
    }
    let slash = word.iter().position(|byte| *byte == b'/')?;
    Some(256 * number(&word[..slash], 255)? + number(&word[slash + 1..], 255)?)
}

/// Whether packets of the protocol show these fields, the source's first.
fn shows(protocol: u16, (source, destination): (u32, u32)) -> bool {
    let is_opaque = source == OPAQUE_FIELD && destination == OPAQUE_FIELD;
    match protocol {
        6 | 17 | 33 | 132 | 136 => is_opaque || source.max(destination) < OPAQUE_FIELD,
        1 | 58 => destination == OPAQUE_FIELD,
        135 => is_opaque || source <= 255 && destination == OPAQUE_FIELD,
        _ => is_opaque,
    }
}
