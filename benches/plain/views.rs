//! The three views of two lists of entries.

use crate::cube::{Address, Cube, Range, OPAQUE_FIELD, OPAQUE_PROTOCOL};
use crate::cutting::Entries;
use crate::policy::{Direction, Line, FINAL};
use crate::text::put_number;
use crate::Out;
use std::io;

pub fn write(
    lines: &[Line],
    outbound: &Entries,
    inbound: &Entries,
    out: &mut Out,
) -> io::Result<()> {
    out.text.extend_from_slice(b"SPD-S\n");
    write_list(lines, Direction::Outbound, outbound, true, out)?;
    write_list(lines, Direction::Inbound, inbound, true, out)?;
    out.text.extend_from_slice(b"SPD-O\n");
    write_list(lines, Direction::Outbound, outbound, false, out)?;
    out.text.extend_from_slice(b"SPD-I\n");
    write_list(lines, Direction::Inbound, inbound, false, out)
}

/// The entries of a direction that protect, or those that don't.
fn write_list(
    lines: &[Line],
    direction: Direction,
    entries: &Entries,
    protects: bool,
    out: &mut Out,
) -> io::Result<()> {
    let mut four = entries.four.as_slice();
    let mut six = entries.six.as_slice();
    for run in &entries.runs {
        let line = lines.get(run.line);
        let is_protected = line.is_some_and(|line| line.protects()) && !run.lacks_flagged;
        let verdict = match line {
            _ if is_protected != protects => None,
            None => Some(FINAL.to_vec()),
            Some(line) if run.lacks_flagged => Some(line.discard()),
            Some(line) => Some(line.verdict(direction)),
        };
        if run.is_six {
            write_run(direction, six.split_off(..run.count), verdict, out)?;
        } else {
            write_run(direction, four.split_off(..run.count), verdict, out)?;
        }
    }
    Ok(())
}

fn write_run<A: Address>(
    direction: Direction,
    cubes: Option<&[Cube<A>]>,
    verdict: Option<Vec<u8>>,
    out: &mut Out,
) -> io::Result<()> {
    let (Some(cubes), Some(verdict)) = (cubes, verdict) else {
        return Ok(());
    };
    for cube in cubes {
        put_entry(&mut out.text, direction, cube);
        out.text.extend_from_slice(&verdict);
        out.end_line()?;
    }
    Ok(())
}

fn put_entry<A: Address>(text: &mut Vec<u8>, direction: Direction, cube: &Cube<A>) {
    let Range { low, high } = cube.protocol;
    text.extend_from_slice(direction.word().as_bytes());
    for addresses in [cube.local, cube.remote] {
        text.push(b' ');
        addresses.low.put(text);
        text.push(b'-');
        addresses.high.put(text);
    }
    put_range(
        text,
        Range::new(low.into(), high.into()),
        OPAQUE_PROTOCOL.into(),
    );
    put_range(text, cube.local_field, OPAQUE_FIELD);
    put_range(text, cube.remote_field, OPAQUE_FIELD);
    text.push(b' ');
}

fn put_range(text: &mut Vec<u8>, range: Range<u32>, opaque: u32) {
    text.push(b' ');
    if (range.low, range.high) == (0, opaque) {
        return text.extend_from_slice(b"any");
    }
    put_value(text, range.low, opaque);
    if range.low < range.high {
        text.push(b'-');
        put_value(text, range.high, opaque);
    }
}

fn put_value(text: &mut Vec<u8>, value: u32, opaque: u32) {
    if value == opaque {
        text.extend_from_slice(b"opaque");
    } else {
        put_number(text, value);
    }
}
