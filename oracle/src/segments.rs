//! Segment files. The crate knows nothing of their front; the lengths and contents after it are its own calls.
use protobuf::{rt, CodedInputStream, CodedOutputStream, Result};

use crate::words::{both, bytes, hex, number, refusal, stream, Line, Parsed};

const FRONT: &[u8] = b"WFM\x01\x00";

/// What is read after the front: the ranges, and the refusal with the place of its length's first byte.
#[derive(PartialEq, Debug)]
struct Outcome {
    refused: u32,
    place: u64,
    ranges: Vec<(u64, u64)>,
}

/// The next message: its length and then its content, by a call that skips it, or by one that gives it. None at the end.
fn message(is: &mut CodedInputStream, bytes: &[u8], skips: bool) -> Result<Option<(u64, u64)>> {
    if is.eof()? {
        return Ok(None);
    }
    let length = is.read_raw_varint32()?;
    let start = is.pos();
    if skips {
        is.skip_raw_bytes(length)?;
    } else {
        let content = is.read_raw_bytes(length)?;
        assert_eq!(content, bytes[start as usize..is.pos() as usize]);
    }
    Ok(Some((start, is.pos())))
}

fn outcome(bytes: &[u8], limited: bool, skips: bool) -> Outcome {
    let mut is = stream(bytes, limited, 0);
    is.skip_raw_bytes(FRONT.len() as u32).expect("a front");
    let mut ranges = Vec::new();
    loop {
        let place = is.pos();
        match message(&mut is, bytes, skips) {
            Ok(Some(range)) => ranges.push(range),
            Ok(None) => return Outcome { refused: 0, place: 0, ranges },
            Err(e) => return Outcome { refused: refusal(&e), place, ranges },
        }
    }
}

/// As a reading with this room says it. The crate has no room: where there are more ranges than that, only the first ones are given.
fn shown(o: &Outcome, room: usize) -> String {
    let kept = &o.ranges[..o.ranges.len().min(room)];
    let list: Vec<String> = kept.iter().map(|(start, end)| format!("{}-{}", start, end)).collect();
    let list = if list.is_empty() { "-".to_string() } else { list.join(";") };
    if o.ranges.len() > room {
        return format!("? {} ? {}", kept.len(), list);
    }
    format!("{} {} {} {}", o.refused, kept.len(), o.place, list)
}

pub fn read(line: &Line) -> Parsed<String> {
    let w = line.words(2)?;
    let (room, bytes): (usize, Vec<u8>) = (number(w[0])?, bytes(w[1])?);
    if !bytes.starts_with(FRONT) {
        return Some("left out: the front of a segment".to_string());
    }
    let over = |limited| {
        let by_skips = outcome(&bytes, limited, true);
        assert_eq!(by_skips, outcome(&bytes, limited, false));
        shown(&by_skips, room)
    };
    Some(both(over(true), over(false), false))
}

/// The contents of the ranges; none where one is not in the payload.
fn contents<'a>(word: &str, payload: &'a [u8]) -> Parsed<Option<Vec<&'a [u8]>>> {
    if word == "-" {
        return Some(Some(Vec::new()));
    }
    let range = |text: &str| {
        let (start, end) = text.split_once('-')?;
        Some((number::<u64>(start)?, number::<u64>(end)?))
    };
    let ranges: Vec<(u64, u64)> = word.split(';').map(range).collect::<Parsed<_>>()?;
    let content = |(start, end): &(u64, u64)| payload.get(usize::try_from(*start).ok()?..usize::try_from(*end).ok()?);
    Some(ranges.iter().map(content).collect())
}

fn put(os: &mut CodedOutputStream, contents: &[&[u8]]) -> Result<()> {
    os.write_raw_bytes(FRONT)?;
    for content in contents {
        os.write_raw_varint32(content.len() as u32)?;
        os.write_raw_bytes(content)?;
    }
    os.flush()
}

/// Into a slice of the room, and into a vector. That the slice is too small is the crate's word for 12.
pub fn write(line: &Line) -> Parsed<String> {
    let w = line.words(3)?;
    let (payload, room): (Vec<u8>, usize) = (bytes(w[1])?, number(w[2])?);
    let Some(contents) = contents(w[0], &payload)? else {
        return Some("left out: a range outside the payload".to_string());
    };
    let size = FRONT.len() as u64 + contents.iter().map(|c| rt::compute_raw_varint64_size(c.len() as u64) + c.len() as u64).sum::<u64>();
    let mut out = vec![0xaa; room];
    let answer = put(&mut CodedOutputStream::bytes(&mut out), &contents);
    Some(match answer {
        Ok(()) => {
            let (front, rest) = out.split_at(size as usize);
            let mut all = Vec::new();
            put(&mut CodedOutputStream::vec(&mut all), &contents).expect("a vector takes all");
            assert_eq!(all, front);
            assert!(rest.iter().all(|b| *b == 0xaa));
            format!("0 {} 0 {}", size, hex(front))
        }
        Err(e) if format!("{:?}", e).contains("given slice is too small") => format!("12 {} 0 -", size),
        Err(e) => format!("{} 0 ? -", refusal(&e)),
    })
}
