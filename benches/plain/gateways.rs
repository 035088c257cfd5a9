//! Whether one gateway judges each packet that comes in as the other did when it went out, by a
//! walk over boxes that are cut until both policies decide them; and the certificate of that walk.

use crate::cube::{Address, Cube, Number, Range, OPAQUE_FIELD, OPAQUE_PROTOCOL};
use crate::cutting::boxes_of;
use crate::policy::{Direction, Line, Networks, FINAL};
use crate::text::put_number;
use std::collections::HashMap;

/// What the audit writes, and whether the policies agree.
pub fn audit(a: &[Line], b: &[Line]) -> (Vec<u8>, bool) {
    let mut judgements = HashMap::new();
    let ours = Gateway::new(a, Direction::Outbound, &mut judgements);
    let theirs = Gateway::new(b, Direction::Inbound, &mut judgements);
    let mut text = b"agree\n".to_vec();
    let four = make::<u32>(&ours.four, &theirs.four, &mut text);
    let gap = match four {
        Some(gap) => Some(told(&gap, a, b)),
        None => make::<u128>(&ours.six, &theirs.six, &mut text).map(|gap| told(&gap, a, b)),
    };
    match gap {
        Some(gap) => (gap, false),
        None => (text, true),
    }
}

/// What is found of a certificate that its grammar allows, and whether it is accepted; none of
/// another text.
pub fn check(a: &[Line], b: &[Line], text: &[u8]) -> Option<(Vec<u8>, bool)> {
    let mut judgements = HashMap::new();
    let ours = Gateway::new(a, Direction::Outbound, &mut judgements);
    let theirs = Gateway::new(b, Direction::Inbound, &mut judgements);
    let mut nodes = text
        .strip_prefix(b"agree\n")?
        .split_inclusive(|byte| *byte == b'\n');
    let mut done = 0;
    let mut broken = None;
    hold::<u32>(&ours.four, &theirs.four, &mut nodes, &mut done, &mut broken)?;
    hold::<u128>(&ours.six, &theirs.six, &mut nodes, &mut done, &mut broken)?;
    if nodes.next().is_some() {
        return None;
    }
    Some(match broken {
        None => (b"accepted\n".to_vec(), true),
        Some(node) => (format!("rejected {node}\n").into_bytes(), false),
    })
}

/// The boxes of a policy as the gateway sees them from which packets go out.
struct Gateway {
    four: Vec<Part<u32>>,
    six: Vec<Part<u128>>,
}

/// A box of a line, counted from 1, and the number of its judgement.
struct Part<A> {
    cube: Cube<A>,
    line: usize,
    judgement: usize,
}

impl Gateway {
    fn new(lines: &[Line], way: Direction, judgements: &mut HashMap<Vec<u8>, usize>) -> Gateway {
        let mut gateway = Gateway {
            four: Vec::new(),
            six: Vec::new(),
        };
        let mut number = |judgement: Vec<u8>| {
            let next = judgements.len();
            *judgements.entry(judgement).or_insert(next)
        };
        let discard = number(b"discard".to_vec());
        for (place, line) in lines.iter().enumerate() {
            if line.has_direction(way) {
                let judgement = number(line.judgement(way));
                let is = (place + 1, judgement, discard);
                put_parts(line, &line.four, way, is, &mut gateway.four);
                put_parts(line, &line.six, way, is, &mut gateway.six);
            }
        }
        let line = lines.len() + 1;
        gateway.four.push(Part {
            cube: Cube::whole(),
            line,
            judgement: discard,
        });
        gateway.six.push(Part {
            cube: Cube::whole(),
            line,
            judgement: discard,
        });
        gateway
    }
}

fn put_parts<A: Address>(
    line: &Line,
    networks: &Networks<A>,
    way: Direction,
    (place, judgement, discard): (usize, usize, usize),
    parts: &mut Vec<Part<A>>,
) {
    for (cube, lacks_flagged) in boxes_of(line, networks) {
        let cube = if way == Direction::Inbound {
            cube.turned()
        } else {
            cube
        };
        let judgement = if lacks_flagged { discard } else { judgement };
        parts.push(Part {
            cube,
            line: place,
            judgement,
        });
    }
}

/// A packet that both judge, by the lines of these numbers.
struct Gap<A> {
    packet: Packet<A>,
    a: usize,
    b: usize,
}

/// Addresses, the protocol and fields, the source's first.
type Packet<A> = (A, A, u16, u32, u32);

/// A box whose tree is still to come, and the parts of both sides that meet it, up to the first
/// that has it all.
struct Task<A> {
    cube: Cube<A>,
    ours: Vec<u32>,
    theirs: Vec<u32>,
}

/// Puts the nodes of the tree over a family at the end of a text; the least gap, where there is
/// one.
fn make<A: Address>(ours: &[Part<A>], theirs: &[Part<A>], text: &mut Vec<u8>) -> Option<Gap<A>> {
    let mut gap: Option<Gap<A>> = None;
    let mut todo = vec![whole(ours, theirs)];
    while let Some(task) = todo.pop() {
        let Some(packet) = task.cube.least_packet() else {
            text.extend_from_slice(b"void\n");
            continue;
        };
        let a = &ours[task.ours[0] as usize];
        let b = &theirs[task.theirs[0] as usize];
        let outer = [a, b]
            .into_iter()
            .find(|part| !task.cube.lies_in(&part.cube));
        let Some(outer) = outer else {
            put_leaf(text, a.line, b.line);
            if a.judgement != b.judgement && gap.as_ref().is_none_or(|gap| packet < gap.packet) {
                gap = Some(Gap {
                    packet,
                    a: a.line,
                    b: b.line,
                });
            }
            continue;
        };
        let axis = task.cube.first_axis_outside(&outer.cube);
        let value = task.cube.cut_at(axis, &outer.cube);
        put_split::<A>(text, axis, value);
        split(task, axis, value, ours, theirs, &mut todo);
    }
    gap
}

fn whole<A: Address>(ours: &[Part<A>], theirs: &[Part<A>]) -> Task<A> {
    let cube = Cube::whole();
    Task {
        cube,
        ours: met(&cube, ours, 0..ours.len() as u32),
        theirs: met(&cube, theirs, 0..theirs.len() as u32),
    }
}

/// Those of some parts that meet a box, up to the first that has it all.
fn met<A: Address>(
    cube: &Cube<A>,
    parts: &[Part<A>],
    places: impl Iterator<Item = u32>,
) -> Vec<u32> {
    let mut found = Vec::new();
    for place in places {
        let other = &parts[place as usize].cube;
        if cube.meets(other) {
            found.push(place);
            if cube.lies_in(other) {
                break;
            }
        }
    }
    found
}

fn split<A: Address>(
    task: Task<A>,
    axis: usize,
    value: u128,
    ours: &[Part<A>],
    theirs: &[Part<A>],
    todo: &mut Vec<Task<A>>,
) {
    let (low, high) = task.cube.split(axis, value);
    for cube in [high, low] {
        todo.push(Task {
            cube,
            ours: met(&cube, ours, task.ours.iter().copied()),
            theirs: met(&cube, theirs, task.theirs.iter().copied()),
        });
    }
}

/// Reads the nodes of the tree over a family; the first of both trees that doesn't hold is kept.
fn hold<'a, A: Address>(
    ours: &[Part<A>],
    theirs: &[Part<A>],
    nodes: &mut impl Iterator<Item = &'a [u8]>,
    done: &mut u64,
    broken: &mut Option<u64>,
) -> Option<()> {
    let mut todo = vec![whole(ours, theirs)];
    while let Some(task) = todo.pop() {
        let node = std::str::from_utf8(nodes.next()?.strip_suffix(b"\n")?).ok()?;
        let words: Vec<&str> = node.split(' ').collect();
        *done += 1;
        let holds = match words[..] {
            ["void"] => task.cube.least_packet().is_none(),
            ["leaf", a, b] => {
                let ours = decided(&task.cube, ours, &task.ours, a.parse().ok()?);
                ours.is_some() && ours == decided(&task.cube, theirs, &task.theirs, b.parse().ok()?)
            }
            ["split", axis, value] => {
                let axis = AXES.iter().position(|word| *word == axis)?;
                let value = read_value::<A>(axis, value)?;
                let (low, high) = task.cube.ends(axis);
                if !(low <= value && value < high) {
                    return None;
                }
                split(task, axis, value, ours, theirs, &mut todo);
                true
            }
            _ => return None,
        };
        if !holds && broken.is_none() {
            *broken = Some(*done);
        }
    }
    Some(())
}

/// How a line judges all of a box, where no earlier line has to do with it.
fn decided<A: Address>(
    cube: &Cube<A>,
    parts: &[Part<A>],
    places: &[u32],
    line: usize,
) -> Option<usize> {
    let mut parts = places.iter().map(|place| &parts[*place as usize]);
    if parts.clone().any(|part| part.line != line) {
        return None;
    }
    parts
        .find(|part| cube.lies_in(&part.cube))
        .map(|part| part.judgement)
}

const AXES: [&str; 5] = ["src", "dst", "proto", "sport", "dport"];

fn put_split<A: Address>(text: &mut Vec<u8>, axis: usize, value: u128) {
    text.extend_from_slice(b"split ");
    text.extend_from_slice(AXES[axis].as_bytes());
    text.push(b' ');
    if axis < 2 {
        A::from_wide(value).put(text);
    } else {
        put_number(text, value as u32);
    }
    text.push(b'\n');
}

fn read_value<A: Address>(axis: usize, word: &str) -> Option<u128> {
    if axis < 2 {
        A::read(word.as_bytes()).map(A::wide)
    } else {
        word.parse().ok()
    }
}

fn put_leaf(text: &mut Vec<u8>, a: usize, b: usize) {
    text.extend_from_slice(b"leaf ");
    put_number(text, a as u32);
    text.push(b' ');
    put_number(text, b as u32);
    text.push(b'\n');
}

/// The lines of a gap.
fn told<A: Address>(gap: &Gap<A>, a: &[Line], b: &[Line]) -> Vec<u8> {
    let (source, destination, protocol, first, second) = gap.packet;
    let mut text = b"differ\npacket ".to_vec();
    source.put(&mut text);
    text.push(b' ');
    destination.put(&mut text);
    text.push(b' ');
    put_protocol(&mut text, protocol);
    for field in [first, second] {
        text.push(b' ');
        put_field(&mut text, protocol, field);
    }
    text.extend_from_slice(b"\na ");
    text.extend_from_slice(&verdict(a, gap.a, Direction::Outbound, gap));
    text.extend_from_slice(b"b ");
    text.extend_from_slice(&verdict(b, gap.b, Direction::Inbound, gap));
    text
}

fn put_protocol(text: &mut Vec<u8>, protocol: u16) {
    if protocol == OPAQUE_PROTOCOL {
        text.extend_from_slice(b"opaque");
    } else {
        put_number(text, protocol.into());
    }
}

fn put_field(text: &mut Vec<u8>, protocol: u16, field: u32) {
    if field == OPAQUE_FIELD {
        text.extend_from_slice(b"opaque");
    } else if protocol == 1 || protocol == 58 {
        put_number(text, field / 256);
        text.push(b'/');
        put_number(text, field % 256);
    } else {
        put_number(text, field);
    }
}

/// The end of the line of a verdict on a gap.
fn verdict<A: Address>(lines: &[Line], place: usize, way: Direction, gap: &Gap<A>) -> Vec<u8> {
    let (_, _, protocol, source, destination) = gap.packet;
    let (local, remote) = match way {
        Direction::Outbound => (source, destination),
        Direction::Inbound => (destination, source),
    };
    match lines.get(place - 1) {
        None => FINAL.to_vec(),
        Some(line) if line.lacks_flagged(protocol, local, remote) => line.discard(),
        Some(line) => line.verdict(way),
    }
}

impl<A: Address> Cube<A> {
    fn turned(&self) -> Self {
        Cube {
            local: self.remote,
            remote: self.local,
            local_field: self.remote_field,
            remote_field: self.local_field,
            ..*self
        }
    }

    fn ends(&self, axis: usize) -> (u128, u128) {
        fn of<N: Number>(range: &Range<N>, wide: impl Fn(N) -> u128) -> (u128, u128) {
            (wide(range.low), wide(range.high))
        }
        match axis {
            0 => of(&self.local, A::wide),
            1 => of(&self.remote, A::wide),
            2 => of(&self.protocol, u128::from),
            3 => of(&self.local_field, u128::from),
            _ => of(&self.remote_field, u128::from),
        }
    }

    fn lies_in(&self, other: &Self) -> bool {
        (0..5).all(|axis| self.lies_in_on(axis, other))
    }

    fn lies_in_on(&self, axis: usize, other: &Self) -> bool {
        let (low, high) = self.ends(axis);
        let (least, most) = other.ends(axis);
        least <= low && high <= most
    }

    fn first_axis_outside(&self, other: &Self) -> usize {
        (0..5)
            .find(|axis| !self.lies_in_on(*axis, other))
            .unwrap_or(0)
    }

    /// The last value of the lower part where the box is cut at an end of another one.
    fn cut_at(&self, axis: usize, other: &Self) -> u128 {
        let (least, most) = other.ends(axis);
        if self.ends(axis).0 < least {
            least - 1
        } else {
            most
        }
    }

    fn split(&self, axis: usize, value: u128) -> (Self, Self) {
        let (mut low, mut high) = (*self, *self);
        let address = A::from_wide(value);
        let field = value as u32;
        match axis {
            0 => (low.local.high, high.local.low) = (address, address.next()),
            1 => (low.remote.high, high.remote.low) = (address, address.next()),
            2 => (low.protocol.high, high.protocol.low) = (value as u16, value as u16 + 1),
            3 => (low.local_field.high, high.local_field.low) = (field, field + 1),
            _ => (low.remote_field.high, high.remote_field.low) = (field, field + 1),
        }
        (low, high)
    }

    /// The least packet that goes out in the box.
    fn least_packet(&self) -> Option<Packet<A>> {
        let (source, destination) = (self.local_field, self.remote_field);
        let has_opaque = |field: Range<u32>| field.high == OPAQUE_FIELD;
        let first_of = |numbers: &[u16]| {
            numbers
                .iter()
                .copied()
                .find(|number| self.protocol.has(*number))
        };
        let mut found: Option<(u16, u32, u32)> = None;
        let mut offer = |protocol: Option<u16>, first: u32, second: u32| {
            let packet = protocol.map(|protocol| (protocol, first, second));
            found = [found, packet].into_iter().flatten().min();
        };
        if source.low < OPAQUE_FIELD && destination.low < OPAQUE_FIELD {
            offer(
                first_of(&[6, 17, 33, 132, 136]),
                source.low,
                destination.low,
            );
        }
        if has_opaque(destination) {
            offer(first_of(&[1, 58]), source.low, OPAQUE_FIELD);
            offer(
                first_of(&[135]).filter(|_| source.low <= 255),
                source.low,
                OPAQUE_FIELD,
            );
        }
        if has_opaque(source) && has_opaque(destination) {
            let first = self.protocol.low;
            let is_packet = A::IS_SIX || first < OPAQUE_PROTOCOL;
            offer(is_packet.then_some(first), OPAQUE_FIELD, OPAQUE_FIELD);
        }
        let (protocol, first, second) = found?;
        Some((self.local.low, self.remote.low, protocol, first, second))
    }
}
