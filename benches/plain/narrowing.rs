//! What a responder answers to a proposal of traffic selectors.

use crate::cube::{Address, Cube, OPAQUE_FIELD, OPAQUE_PROTOCOL};
use crate::cutting::Entries;
use crate::policy::Line;

/// What is written, and whether something is acceptable; none of a text that is no proposal.
pub fn narrow(
    lines: &[Line],
    outbound: &Entries,
    inbound: &Entries,
    text: &[u8],
) -> Option<(Vec<u8>, bool)> {
    let mut texts = text
        .strip_suffix(b"\n")
        .unwrap_or(text)
        .split(|byte| *byte == b'\n');
    let (tsi, tsr) = (texts.next()?, texts.next()?);
    let (tsi, tsr) = (selectors(tsi)?, selectors(tsr)?);
    let meets = meets(lines, outbound, inbound);
    let Some(answer) = answer(&meets, &tsi, &tsr) else {
        return Some((b"unacceptable 38\n".to_vec(), false));
    };
    let mut written = format!("narrowed {}\n", lines[answer.line].name);
    for (word, next, list) in [("tsi", 45, &answer.tsi), ("tsr", 0, &answer.tsr)] {
        written.push_str(word);
        written.push(' ');
        payload(next, list)
            .iter()
            .for_each(|byte| written.push_str(&format!("{byte:02x}")));
        written.push('\n');
    }
    if answer.additional {
        written.push_str("additional 16386\n");
    }
    Some((written.into_bytes(), true))
}

// Payloads.

#[derive(Clone, Copy)]
struct Selector {
    is_six: bool,
    protocol: u8,
    ports: (u16, u16),
    addresses: (u128, u128),
}

fn selectors(hex: &[u8]) -> Option<Vec<Selector>> {
    let digit = |digit: u8| char::from(digit).to_digit(16);
    let bytes = hex.chunks(2).map(|pair| match pair {
        [high, low] => Some((16 * digit(*high)? + digit(*low)?) as u8),
        _ => None,
    });
    let bytes = bytes.collect::<Option<Vec<u8>>>()?;
    let (head, mut rest) = bytes.split_at_checked(8)?;
    let mut list = Vec::new();
    for _ in 0..head[4] {
        let length = usize::from(u16::from_be_bytes([*rest.get(2)?, *rest.get(3)?]));
        let (selector, behind) = rest.split_at_checked(length)?;
        rest = behind;
        let is_six = match selector[0] {
            7 => false,
            8 => true,
            _ => continue,
        };
        let number = |bytes: &[u8]| {
            bytes
                .iter()
                .fold(0, |sum, byte| sum << 8 | u128::from(*byte))
        };
        let (first, last) = selector[8..].split_at((length - 8) / 2);
        list.push(Selector {
            is_six,
            protocol: selector[1],
            ports: (
                number(&selector[4..6]) as u16,
                number(&selector[6..8]) as u16,
            ),
            addresses: (number(first), number(last)),
        });
    }
    Some(list)
}

fn payload(next: u8, list: &[Selector]) -> Vec<u8> {
    let mut bytes = Vec::new();
    for selector in list {
        let (kind, length, width) = if selector.is_six {
            (8, 40, 16)
        } else {
            (7, 16, 4)
        };
        bytes.extend([kind, selector.protocol, 0, length]);
        bytes.extend(selector.ports.0.to_be_bytes());
        bytes.extend(selector.ports.1.to_be_bytes());
        for address in [selector.addresses.0, selector.addresses.1] {
            bytes.extend(&address.to_be_bytes()[16 - width..]);
        }
    }
    let length = (8 + bytes.len()) as u16;
    let mut head = vec![next, 0];
    head.extend(length.to_be_bytes());
    head.extend([list.len() as u8, 0, 0, 0]);
    head.extend(bytes);
    head
}

// Boxes of either family.

type Ends = (u128, u128);

const LOCAL: usize = 0;
const REMOTE: usize = 1;
const PROTOCOL: usize = 2;
const LOCAL_FIELD: usize = 3;
const REMOTE_FIELD: usize = 4;
const ALL_PROTOCOLS: Ends = (0, OPAQUE_PROTOCOL as u128);
const LAST_FIELD: u128 = OPAQUE_FIELD as u128;

#[derive(Clone, Copy)]
struct Region {
    is_six: bool,
    ends: [Ends; 5],
}

impl Region {
    fn of<A: Address>(cube: &Cube<A>) -> Region {
        let wide = |low: u32, high: u32| (u128::from(low), u128::from(high));
        Region {
            is_six: A::IS_SIX,
            ends: [
                (cube.local.low.wide(), cube.local.high.wide()),
                (cube.remote.low.wide(), cube.remote.high.wide()),
                wide(cube.protocol.low.into(), cube.protocol.high.into()),
                wide(cube.local_field.low, cube.local_field.high),
                wide(cube.remote_field.low, cube.remote_field.high),
            ],
        }
    }

    fn meet(&self, other: &Region) -> Option<Region> {
        let mut ends = self.ends;
        for (own, other) in ends.iter_mut().zip(&other.ends) {
            *own = common(*own, *other)?;
        }
        (self.is_six == other.is_six).then_some(Region { ends, ..*self })
    }

    fn lies_in(&self, other: &Region) -> bool {
        let mut pairs = self.ends.iter().zip(&other.ends);
        self.is_six == other.is_six
            && pairs.all(|(own, other)| other.0 <= own.0 && own.1 <= other.1)
    }

    /// What is left without another one, axis by axis.
    fn minus(&self, other: &Region, pieces: &mut Vec<Region>) {
        let Some(meet) = self.meet(other) else {
            return pieces.push(*self);
        };
        let mut rest = *self;
        for axis in 0..5 {
            let (low, high) = rest.ends[axis];
            let (first, last) = meet.ends[axis];
            if low < first {
                pieces.push(rest.with(axis, (low, first - 1)));
            }
            if last < high {
                pieces.push(rest.with(axis, (last + 1, high)));
            }
            rest = rest.with(axis, (first, last));
        }
    }

    fn with(mut self, axis: usize, ends: Ends) -> Region {
        self.ends[axis] = ends;
        self
    }

    fn of_protocols(&self, protocols: Ends) -> Option<Region> {
        Some(self.with(PROTOCOL, common(self.ends[PROTOCOL], protocols)?))
    }

    fn is_real(&self) -> bool {
        fn cube<A: Address>(region: &Region) -> bool {
            let mut cube = Cube::<A>::whole();
            let [local, remote, protocol, first, second] = region.ends;
            (cube.local.low, cube.local.high) = (A::from_wide(local.0), A::from_wide(local.1));
            (cube.remote.low, cube.remote.high) = (A::from_wide(remote.0), A::from_wide(remote.1));
            (cube.protocol.low, cube.protocol.high) = (protocol.0 as u16, protocol.1 as u16);
            (cube.local_field.low, cube.local_field.high) = (first.0 as u32, first.1 as u32);
            (cube.remote_field.low, cube.remote_field.high) = (second.0 as u32, second.1 as u32);
            cube.is_real()
        }
        if self.is_six {
            cube::<u128>(self)
        } else {
            cube::<u32>(self)
        }
    }

    fn side(&self, axis: usize, field: usize) -> Span {
        Span {
            is_six: self.is_six,
            addresses: self.ends[axis],
            protocols: self.ends[PROTOCOL],
            fields: self.ends[field],
        }
    }

    fn local_side(&self) -> Span {
        self.side(LOCAL, LOCAL_FIELD)
    }

    fn remote_side(&self) -> Span {
        self.side(REMOTE, REMOTE_FIELD)
    }

    fn can_be_written(&self) -> bool {
        self.local_side().can_be_written() && self.remote_side().can_be_written()
    }
}

fn common(one: Ends, other: Ends) -> Option<Ends> {
    let (low, high) = (one.0.max(other.0), one.1.min(other.1));
    (low <= high).then_some((low, high))
}

// Spans, what a selector has on its side.

#[derive(Clone, Copy)]
struct Span {
    is_six: bool,
    addresses: Ends,
    protocols: Ends,
    fields: Ends,
}

impl Span {
    fn of(selector: &Selector) -> Option<Span> {
        let (start, end) = (u128::from(selector.ports.0), u128::from(selector.ports.1));
        let fields = match (start, end) {
            (0, 65_535) => (0, LAST_FIELD),
            (65_535, 0) => (LAST_FIELD, LAST_FIELD),
            _ if selector.protocol == 135 => (start.div_ceil(256), end / 256),
            _ => (start, end),
        };
        let number = u128::from(selector.protocol);
        (fields.0 <= fields.1).then_some(Span {
            is_six: selector.is_six,
            addresses: selector.addresses,
            protocols: if number == 0 {
                ALL_PROTOCOLS
            } else {
                (number, number)
            },
            fields,
        })
    }

    fn meet(&self, other: &Span) -> Option<Span> {
        (self.is_six == other.is_six).then_some(Span {
            is_six: self.is_six,
            addresses: common(self.addresses, other.addresses)?,
            protocols: common(self.protocols, other.protocols)?,
            fields: common(self.fields, other.fields)?,
        })
    }

    fn has_number(&self) -> bool {
        self.protocols.0 == self.protocols.1 && (1..=255).contains(&self.protocols.0)
    }

    fn can_be_written(&self) -> bool {
        let is_all = self.fields.1 == LAST_FIELD && [0, LAST_FIELD].contains(&self.fields.0);
        self.has_number() || self.protocols == ALL_PROTOCOLS && is_all
    }

    fn put(&self, list: &mut Vec<Selector>) {
        let (first, last) = self.fields;
        let is_mobility = self.protocols.0 == 135;
        let opaque = (65_535, 0);
        let ports: Vec<Ends> = match (first, last) {
            (0, LAST_FIELD) => vec![(0, 65_535)],
            (LAST_FIELD, _) => vec![opaque],
            (_, LAST_FIELD) if is_mobility && first > 255 => vec![opaque],
            (_, LAST_FIELD) if is_mobility => vec![(256 * first, 65_280), opaque],
            (_, LAST_FIELD) => vec![(first, 65_535), opaque],
            _ if is_mobility && first > 255 => vec![],
            _ if is_mobility => vec![(256 * first, 256 * last.min(255))],
            (0, 65_535) => vec![(0, 32_767), (32_768, 65_535)],
            _ => vec![(first, last)],
        };
        list.extend(ports.into_iter().map(|(start, end)| Selector {
            is_six: self.is_six,
            protocol: self.protocols.0 as u8,
            ports: (start as u16, end as u16),
            addresses: self.addresses,
        }));
    }
}

fn cut_selectors(side: &Span, list: &[Selector]) -> Vec<Selector> {
    let mut cut = Vec::new();
    for span in list.iter().filter_map(Span::of) {
        if let Some(part) = span.meet(side) {
            part.put(&mut cut);
        }
    }
    cut
}

// What the lines protect in both directions.

struct Meet {
    region: Region,
    line: usize,
}

fn meets(lines: &[Line], outbound: &Entries, inbound: &Entries) -> Vec<Meet> {
    let mut by_line = Vec::new();
    by_line.resize_with(lines.len(), Vec::new);
    for (region, line) in protected(lines, inbound) {
        by_line[line].push(region);
    }
    let mut meets = Vec::new();
    for (region, line) in protected(lines, outbound) {
        let near = by_line[line].iter().filter_map(|other| region.meet(other));
        meets.extend(near.map(|region| Meet { region, line }));
    }
    meets
}

/// The regions of the entries that protect, and the places of their lines from 0, in order.
fn protected(lines: &[Line], entries: &Entries) -> Vec<(Region, usize)> {
    let (mut four, mut six) = (entries.four.iter(), entries.six.iter());
    let mut list = Vec::new();
    for run in &entries.runs {
        let line = lines.get(run.line);
        let is_protected = line.is_some_and(Line::protects) && !run.lacks_flagged;
        for _ in 0..run.count {
            let region = match run.is_six {
                true => six.next().map(Region::of),
                false => four.next().map(Region::of),
            };
            list.extend(
                region
                    .filter(|_| is_protected)
                    .map(|region| (region, run.line)),
            );
        }
    }
    list
}

// The answer.

/// The spans of a proposal, and the boxes of their pairs.
struct Cover {
    tsi: Vec<Span>,
    tsr: Vec<Span>,
}

impl Cover {
    fn new(tsi: &[Selector], tsr: &[Selector]) -> Cover {
        Cover {
            tsi: tsi.iter().filter_map(Span::of).collect(),
            tsr: tsr.iter().filter_map(Span::of).collect(),
        }
    }

    fn pairs(&self) -> impl Iterator<Item = Region> + '_ {
        let pairs = self
            .tsi
            .iter()
            .flat_map(|i| self.tsr.iter().map(move |r| (i, r)));
        pairs.filter_map(|(remote, local)| pair(remote, local))
    }

    /// Whether a region has a real point in some pair.
    fn reaches(&self, region: &Region) -> bool {
        let (local, remote) = (region.local_side(), region.remote_side());
        let tsi: Vec<_> = self
            .tsi
            .iter()
            .filter_map(|span| span.meet(&remote))
            .collect();
        if tsi.is_empty() {
            return false;
        }
        let mut tsr = self.tsr.iter().filter_map(|span| span.meet(&local));
        tsr.any(|local| {
            let mut pairs = tsi.iter().filter_map(|remote| pair(remote, &local));
            pairs.any(|pair| pair.is_real())
        })
    }

    /// Whether it has one whose protocol a selector can name.
    fn says(&self, region: &Region) -> bool {
        region
            .of_protocols((1, 255))
            .is_some_and(|part| self.reaches(&part))
    }

    /// Whether a real point of some pair is in no meet of a line.
    fn leaves(&self, meets: &[Meet], line: usize) -> bool {
        self.pairs().any(|pair| {
            let mut pieces = vec![pair];
            let mut spare = Vec::new();
            for meet in meets.iter().filter(|meet| meet.line == line) {
                if pair.meet(&meet.region).is_none() {
                    continue;
                }
                spare.clear();
                pieces
                    .iter()
                    .for_each(|piece| piece.minus(&meet.region, &mut spare));
                std::mem::swap(&mut pieces, &mut spare);
            }
            pieces.iter().any(Region::is_real)
        })
    }

    /// A region as it can be written, which is its first protocol here where it can't be whole.
    fn written(&self, region: &Region) -> Region {
        if region.can_be_written() {
            return *region;
        }
        let mut parts = (1..256).filter_map(|number| region.of_protocols((number, number)));
        parts.find(|part| self.reaches(part)).unwrap_or(*region)
    }
}

fn pair(remote: &Span, local: &Span) -> Option<Region> {
    let protocols = common(remote.protocols, local.protocols)?;
    (remote.is_six == local.is_six).then_some(Region {
        is_six: local.is_six,
        ends: [
            local.addresses,
            remote.addresses,
            protocols,
            local.fields,
            remote.fields,
        ],
    })
}

struct Answer {
    line: usize,
    tsi: Vec<Selector>,
    tsr: Vec<Selector>,
    additional: bool,
}

fn answer(meets: &[Meet], tsi: &[Selector], tsr: &[Selector]) -> Option<Answer> {
    let cover = Cover::new(tsi, tsr);
    let said = meets.iter().find(|meet| cover.says(&meet.region))?;
    if !cover.leaves(meets, said.line) {
        let (tsi, tsr) = (tsi.to_vec(), tsr.to_vec());
        return Some(Answer {
            line: said.line,
            tsi,
            tsr,
            additional: false,
        });
    }
    let (line, region, is_cut) = choice(meets, &cover, said, tsi, tsr);
    let additional = meets.iter().any(|meet| {
        let mut pieces = Vec::new();
        meet.region.minus(&region, &mut pieces);
        pieces.iter().any(|piece| cover.reaches(piece))
    });
    let (tsi, tsr) = if is_cut {
        (
            cut_selectors(&region.remote_side(), tsi),
            cut_selectors(&region.local_side(), tsr),
        )
    } else {
        (vec![tsi[0]], vec![tsr[0]])
    };
    Some(Answer {
        line,
        tsi,
        tsr,
        additional,
    })
}

/// The line, the region, and whether selectors are cut to it: else the first two are answered.
fn choice(
    meets: &[Meet],
    cover: &Cover,
    said: &Meet,
    tsi: &[Selector],
    tsr: &[Selector],
) -> (usize, Region, bool) {
    let only = Cover::new(&tsi[..1.min(tsi.len())], &tsr[..1.min(tsr.len())]);
    let cut_to = |cover: &Cover, meet: &Meet| (meet.line, cover.written(&meet.region), true);
    let Some(first) = only.pairs().next() else {
        return cut_to(cover, said);
    };
    let kept = meets.iter().find(|meet| only.reaches(&meet.region));
    if let Some(kept) = kept.filter(|kept| !only.leaves(meets, kept.line)) {
        let serving = meets.iter().find(|meet| {
            let is_written = meet.region.can_be_written() || first.local_side().has_number();
            meet.line == kept.line && first.lies_in(&meet.region) && is_written
        });
        return serving.map_or((kept.line, first, false), |meet| cut_to(&only, meet));
    }
    let in_first = meets.iter().find(|meet| only.says(&meet.region));
    in_first.map_or_else(|| cut_to(cover, said), |meet| cut_to(&only, meet))
}
