//! Taking the overlaps out of a policy.

use crate::cube::{Address, Cube, Number, Range, OPAQUE_FIELD, OPAQUE_PROTOCOL};
use crate::policy::{Direction, Line, Networks};
use std::mem;

/// The most boxes that share a hull.
const BLOCK: usize = 64;

/// The entries of a direction, the boxes of each family apart.
#[derive(Default)]
pub struct Entries {
    pub runs: Vec<Run>,
    pub four: Vec<Cube<u32>>,
    pub six: Vec<Cube<u128>>,
}

/// Entries of one family that stand one after another and have one verdict.
pub struct Run {
    /// The place of the line, counted from 0.
    pub line: usize,
    pub is_six: bool,
    /// Whether a flagged selector has no value, so that they are discarded.
    pub lacks_flagged: bool,
    pub count: usize,
}

/// The entries in the order of cutting; where entries and pieces pass the limit, the line of the
/// box that is being cut, counted from 1.
pub fn decorrelate(lines: &[Line], direction: Direction, limit: usize) -> Result<Entries, usize> {
    let mut entries = Entries::default();
    let mut four = Cutter::new();
    let mut six = Cutter::new();
    for (place, line) in lines.iter().enumerate() {
        if line.has_direction(direction) {
            add_line(line, place, &line.four, &mut four, limit, &mut entries)?;
            add_line(line, place, &line.six, &mut six, limit, &mut entries)?;
        }
    }
    add(
        Cube::<u32>::whole(),
        lines.len(),
        false,
        &mut four,
        limit,
        &mut entries,
    )?;
    add(
        Cube::<u128>::whole(),
        lines.len(),
        false,
        &mut six,
        limit,
        &mut entries,
    )?;
    Ok(entries)
}

trait Family: Address {
    fn list(entries: &mut Entries) -> &mut Vec<Cube<Self>>;
}

impl Family for u32 {
    fn list(entries: &mut Entries) -> &mut Vec<Cube<u32>> {
        &mut entries.four
    }
}

impl Family for u128 {
    fn list(entries: &mut Entries) -> &mut Vec<Cube<u128>> {
        &mut entries.six
    }
}

/// Cuts the boxes of a line in one family.
fn add_line<A: Family>(
    line: &Line,
    place: usize,
    networks: &Networks<A>,
    cutter: &mut Cutter<A>,
    limit: usize,
    entries: &mut Entries,
) -> Result<(), usize> {
    for (cube, lacks_flagged) in boxes_of(line, networks) {
        add(cube, place, lacks_flagged, cutter, limit, entries)?;
    }
    Ok(())
}

/// The boxes of a line in one family, and whether a flagged selector has no value there.
pub fn boxes_of<A: Address>(line: &Line, networks: &Networks<A>) -> Vec<(Cube<A>, bool)> {
    let protocols = parts(line.protocol, OPAQUE_PROTOCOL, line.flags.protocol);
    let fields = |ranges: &[Range<u32>], is_flagged| {
        let parts = ranges
            .iter()
            .flat_map(|range| parts(*range, OPAQUE_FIELD, is_flagged));
        parts.collect::<Vec<_>>()
    };
    let local_fields = fields(&line.local_fields, line.flags.local_field);
    let remote_fields = fields(&line.remote_fields, line.flags.remote_field);
    let mut boxes = Vec::new();
    for local in &networks.local {
        for remote in &networks.remote {
            for protocol in &protocols {
                for local_field in &local_fields {
                    for remote_field in &remote_fields {
                        let cube = Cube {
                            local: *local,
                            remote: *remote,
                            protocol: *protocol,
                            local_field: *local_field,
                            remote_field: *remote_field,
                        };
                        let lacks_flagged =
                            line.lacks_flagged(protocol.low, local_field.low, remote_field.low);
                        boxes.push((cube, lacks_flagged));
                    }
                }
            }
        }
    }
    boxes
}

/// A range, a flagged `any` in two: its numbers, and the value that isn't available.
fn parts<N: Number>(range: Range<N>, opaque: N, is_flagged: bool) -> Vec<Range<N>> {
    if is_flagged && range == Range::new(N::FIRST, opaque) {
        vec![
            Range::new(N::FIRST, opaque.previous()),
            Range::new(opaque, opaque),
        ]
    } else {
        vec![range]
    }
}

fn add<A: Family>(
    cube: Cube<A>,
    line: usize,
    lacks_flagged: bool,
    cutter: &mut Cutter<A>,
    limit: usize,
    entries: &mut Entries,
) -> Result<(), usize> {
    let room = limit - entries.four.len() - entries.six.len();
    cutter
        .cut_by_earlier(&cube, room)
        .map_err(|PastLimit| line + 1)?;
    let list = A::list(entries);
    let before = list.len();
    list.extend(cutter.pieces.iter().filter(|piece| piece.is_real()));
    let count = list.len() - before;
    if count > 0 {
        entries.runs.push(Run {
            line,
            is_six: A::IS_SIX,
            lacks_flagged,
            count,
        });
    }
    cutter.push_earlier(cube);
    Ok(())
}

struct PastLimit;

/// The boxes of a family so far, a hull over each block of them, and the pieces of the present box.
struct Cutter<A> {
    earlier: Vec<Cube<A>>,
    hulls: Vec<Cube<A>>,
    pieces: Pieces<A>,
}

impl<A: Address> Cutter<A> {
    fn new() -> Self {
        Cutter {
            earlier: Vec::new(),
            hulls: Vec::new(),
            pieces: Pieces::new(),
        }
    }

    fn push_earlier(&mut self, cube: Cube<A>) {
        match self.hulls.last_mut() {
            Some(hull) if self.earlier.len() % BLOCK > 0 => *hull = hull.hull(&cube),
            _ => self.hulls.push(cube),
        }
        self.earlier.push(cube);
    }

    /// Takes all earlier boxes out of a box, as long as there are at most `room` pieces.
    fn cut_by_earlier(&mut self, cube: &Cube<A>, room: usize) -> Result<(), PastLimit> {
        self.pieces.begin(cube);
        let blocks = self.earlier.chunks(BLOCK).zip(&self.hulls);
        let near = blocks
            .filter(|(_, hull)| hull.meets(cube))
            .flat_map(|(block, _)| block);
        let mut near = near.filter(|other| other.meets(cube));
        while self.pieces.count > 0 {
            if self.pieces.count > room {
                return Err(PastLimit);
            }
            match near.next() {
                Some(other) => self.pieces.cut_by(other),
                None => break,
            }
        }
        Ok(())
    }
}

/// What is left of a box, in blocks.
struct Pieces<A> {
    blocks: Vec<Block<A>>,
    count: usize,
    spare: Vec<Cube<A>>,
}

/// Pieces that stand one after another, and a box that has them all.
struct Block<A> {
    hull: Cube<A>,
    pieces: Vec<Cube<A>>,
}

impl<A: Address> Pieces<A> {
    fn new() -> Self {
        Pieces {
            blocks: Vec::new(),
            count: 0,
            spare: Vec::new(),
        }
    }

    /// Makes a box its own only piece.
    fn begin(&mut self, cube: &Cube<A>) {
        self.blocks.clear();
        self.blocks.push(Block::new(vec![*cube]));
        self.count = 1;
    }

    fn iter(&self) -> impl Iterator<Item = Cube<A>> + '_ {
        self.blocks
            .iter()
            .flat_map(|block| block.pieces.iter().copied())
    }

    /// Takes a box out of the pieces of each block whose hull it meets.
    fn cut_by(&mut self, other: &Cube<A>) {
        let mut at = 0;
        while at < self.blocks.len() {
            at += if self.blocks[at].hull.meets(other) {
                self.cut_block(at, other)
            } else {
                1
            };
        }
    }

    /// Takes a box out of the pieces of one block, and says how many blocks they are then.
    fn cut_block(&mut self, at: usize, other: &Cube<A>) -> usize {
        let block = &mut self.blocks[at];
        let Some(first) = block.pieces.iter().position(|piece| piece.meets(other)) else {
            return 1;
        };
        self.count -= block.pieces.len();
        self.spare.clear();
        self.spare.extend_from_slice(&block.pieces[first..]);
        block.pieces.truncate(first);
        for piece in &self.spare {
            if piece.meets(other) {
                piece.cut(other, &mut block.pieces);
            } else {
                block.pieces.push(*piece);
            }
        }
        self.count += block.pieces.len();
        self.even_out(at)
    }

    /// Drops a block without pieces, and parts one that has outgrown its room. Says how many blocks
    /// stand in its place.
    fn even_out(&mut self, at: usize) -> usize {
        let block = &mut self.blocks[at];
        if block.pieces.is_empty() {
            self.blocks.remove(at);
            return 0;
        }
        if block.pieces.len() <= BLOCK {
            block.hull = hull_of(&block.pieces);
            return 1;
        }
        let pieces = mem::take(&mut block.pieces);
        let parts = pieces
            .chunks(BLOCK / 2)
            .map(|part| Block::new(part.to_vec()));
        let count = parts.len();
        self.blocks.splice(at..=at, parts);
        count
    }
}

impl<A: Address> Block<A> {
    fn new(pieces: Vec<Cube<A>>) -> Self {
        Block {
            hull: hull_of(&pieces),
            pieces,
        }
    }
}

/// The least box that has all of these, of which there is at least one.
fn hull_of<A: Address>(cubes: &[Cube<A>]) -> Cube<A> {
    cubes
        .iter()
        .skip(1)
        .fold(cubes[0], |hull, cube| hull.hull(cube))
}
