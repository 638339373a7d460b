//! Verbs that are one call: varints, zigzag, tags, sizes, kinds, UTF-8 and the two skips.
use std::panic::{catch_unwind, AssertUnwindSafe};

use protobuf::descriptor::field_descriptor_proto::Type;
use protobuf::rt::{self, WireType};
use protobuf::{CodedInputStream, CodedOutputStream, Enum, Result, UnknownFields};

use crate::scalars;
use crate::words::{both, bytes, hex, number, numbers, refusal, stream, Line, Parsed};
use crate::writing::Announced;

pub fn call(line: &Line) -> Parsed<String> {
    let one = || line.words(1).map(|w| w[0]);
    Some(match line.verb() {
        "varint64" => varint(one()?, |is| is.read_raw_varint64())?,
        "varint32" => varint(one()?, |is| is.read_raw_varint32().map(u64::from))?,
        "encode" => encode(number(one()?)?),
        "vsize" => rt::compute_raw_varint64_size(number(one()?)?).to_string(),
        "tagsize" => rt::tag_size(number(one()?)?).to_string(),
        "zdec32" => back(u64::from(number::<u32>(one()?)?), |is| is.read_sint32().map(|v| v as i64 as u64)),
        "zdec64" => back(number(one()?)?, |is| is.read_sint64().map(|v| v as u64)),
        "zenc32" => zenc(17, number(one()?)?)?,
        "zenc64" => zenc(18, number(one()?)?)?,
        "tag" => tag(number(one()?)?),
        "maketag" => make_tag(number(line.words(2)?[0])?, number(line.words(2)?[1])?),
        "msgsize" => message_size(number(one()?)?),
        "fieldsize" => field_size(line.words(3)?)?,
        "packedsize" => packed_size(line.words(3)?)?,
        "wire" => wire(number(one()?)?),
        "utf8" => utf8(&bytes(one()?)?),
        "utf8prefix" => utf8_prefix(&bytes(one()?)?).to_string(),
        "skip" => skip(line.words(3)?, |tag, is| rt::skip_field_for_tag(tag, is))?,
        "group" => skip(line.words(3)?, |tag, is| rt::read_unknown_or_skip_group(tag, is, &mut UnknownFields::new()))?,
        _ => return None,
    })
}

/// A call over limited and over bare streams.
fn twice(bytes: &[u8], level: u64, said: impl Fn(&mut CodedInputStream) -> String) -> String {
    let over = |limited| said(&mut stream(bytes, limited, level));
    both(over(true), over(false), false)
}

fn varint(word: &str, read: impl Fn(&mut CodedInputStream) -> Result<u64>) -> Parsed<String> {
    let bytes = bytes(word)?;
    Some(twice(&bytes, 0, |is| match read(is) {
        Ok(v) => format!("ok {} {}", v, is.pos()),
        Err(e) => format!("refused {}", refusal(&e)),
    }))
}

/// What is written by a call, into a vector.
fn written(put: impl Fn(&mut CodedOutputStream) -> Result<()>) -> Vec<u8> {
    let mut out = Vec::new();
    let mut os = CodedOutputStream::vec(&mut out);
    put(&mut os).expect("a vector takes all");
    os.flush().expect("a vector takes all");
    drop(os);
    out
}

/// By the 64-bit encoder, and by the 32-bit one where the number has no more bits.
fn encode(v: u64) -> String {
    let wide = written(|os| os.write_raw_varint64(v));
    if let Ok(small) = u32::try_from(v) {
        assert_eq!(wide, written(|os| os.write_raw_varint32(small)));
    }
    hex(&wide)
}

fn back(v: u64, read: impl Fn(&mut CodedInputStream) -> Result<u64>) -> String {
    let bytes = written(|os| os.write_raw_varint64(v));
    twice(&bytes, 0, |is| read(is).expect("a whole varint").to_string())
}

fn zenc(kind: u32, v: u64) -> Parsed<String> {
    if !scalars::fits(kind, v) {
        return None;
    }
    let bytes = written(|os| if kind == 17 { os.write_sint32_no_tag(v as i32) } else { os.write_sint64_no_tag(v as i64) });
    Some(twice(&bytes, 0, |is| is.read_raw_varint64().expect("a whole varint").to_string()))
}

/// `Tag::new` is not public: its number is seen in the unknown field that a varint after it becomes, its wire type in how much a skip takes of
/// bytes that are a varint of 1, a group of 3, a fixed32 of 4, a fixed64 of 8 and a content of 9.
fn tag(v: u32) -> String {
    let rest = [8, 0, 0x0c, 0, 0, 0, 0, 0, 0];
    let mut is = stream(&rest, true, 0);
    let wire = match rt::skip_field_for_tag(v, &mut is) {
        Err(e) if refusal(&e) == 4 => 4,
        Err(e) => return format!("refused {}", refusal(&e)),
        Ok(()) => match is.pos() {
            1 => 0,
            3 => 3,
            4 => 5,
            8 => 1,
            _ => 2,
        },
    };
    let mut unknown = UnknownFields::new();
    rt::read_unknown_or_skip_group(v & !7, &mut stream(&rest, true, 0), &mut unknown).expect("a varint");
    let number = unknown.iter().next().expect("an unknown field").0;
    format!("ok {} {}", number, wire)
}

/// The crate panics where the rules refuse 3, and has no wire type above 5.
fn make_tag(number: u32, wire: u32) -> String {
    let Some(wire) = WireType::new(wire) else { return "refused 3".to_string() };
    let made = catch_unwind(AssertUnwindSafe(|| written(|os| os.write_tag(number, wire))));
    match made {
        Ok(bytes) => format!("ok {}", stream(&bytes, true, 0).read_raw_varint32().expect("a tag")),
        Err(_) => "refused 3".to_string(),
    }
}

/// `check_message_size` is not public: writing a message that says so of its size calls it.
fn message_size(size: u64) -> String {
    match Announced(size).written() {
        Ok(()) => "ok".to_string(),
        Err(e) => format!("refused {}", refusal(&e)),
    }
}

fn field_size(w: &[&str]) -> Parsed<String> {
    let (kind, field, v): (u32, u32, u64) = (number(w[0])?, number(w[1])?, number(w[2])?);
    match kind {
        9 | 12 if v > 1 << 20 => return Some("left out: a long content".to_string()),
        9 => return Some(rt::string_size(field, &"a".repeat(v as usize)).to_string()),
        12 => return Some(rt::bytes_size(field, &vec![0; v as usize]).to_string()),
        _ => {}
    }
    if !scalars::fits(kind, v) {
        return None;
    }
    Some(scalars::size(kind, field, v).to_string())
}

fn packed_size(w: &[&str]) -> Parsed<String> {
    let (kind, field, values): (u32, u32, Vec<u64>) = (number(w[0])?, number(w[1])?, numbers(w[2], ',')?);
    if !values.iter().all(|v| scalars::fits(kind, *v)) || !scalars::fits(kind, 0) {
        return None;
    }
    if kind == 14 && values.iter().any(|v| *v > i32::MAX as u64) {
        return Some("left out: a packed negative enum".to_string());
    }
    Some(scalars::packed_size(kind, field, &values).to_string())
}

fn wire(kind: u32) -> String {
    if kind == 10 {
        return "left out: the wire type of groups".to_string();
    }
    let kind = i32::try_from(kind).ok().and_then(Type::from_i32);
    kind.map_or("none".to_string(), |k| (WireType::for_type(k) as u32).to_string())
}

fn utf8(content: &[u8]) -> String {
    let field = written(|os| os.write_bytes_no_tag(content));
    twice(&field, 0, |is| match is.read_string() {
        Ok(text) => {
            assert_eq!(text.as_bytes(), content);
            "ok".to_string()
        }
        Err(e) => format!("refused {}", refusal(&e)),
    })
}

/// The length of the longest front that the crate takes as a string. It has no call for that: every front is asked, the longest first.
pub fn utf8_prefix(content: &[u8]) -> usize {
    (0..=content.len()).rev().find(|n| utf8(&content[..*n]) == "ok").expect("no bytes are a string")
}

fn skip(w: &[&str], by: impl Fn(u32, &mut CodedInputStream) -> Result<()>) -> Parsed<String> {
    let (level, tag, bytes): (u64, u32, Vec<u8>) = (number(w[0])?, number(w[1])?, bytes(w[2])?);
    Some(twice(&bytes, level, |is| match by(tag, is) {
        Ok(()) => format!("0 {}", is.pos()),
        Err(e) => format!("{} 0", refusal(&e)),
    }))
}
