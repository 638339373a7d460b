// The crate driver: the records of a message in lent room, by CodedInputStream's public calls. It allocates nothing but two buffers that grow once.
// With the feature `dropped` what is dropped, a skipped group or an empty packed field, gives a record too: a library of its own, so that this changes nothing in the other.
use protobuf::{rt::skip_field_for_tag, CodedInputStream, Result};
use std::slice::{from_raw_parts, from_raw_parts_mut};

#[repr(C)]
pub struct Entry {
    owner: u32,
    number: u32,
    kind: u32,
    repeated: u32,
    child: u32,
}

#[repr(C)]
pub struct Record {
    depth: u64,
    number: u64,
    kind: u64,
    value: u64,
    start: u64,
    end: u64,
    tag: u64,
}

struct Room<'a> {
    out: &'a mut [Record],
    count: usize,
}

impl Room<'_> {
    // with dropped spans it is called at two more places, is then not inlined everywhere by itself, and that takes more on all inputs
    #[cfg_attr(feature = "dropped", inline(always))]
    fn put(&mut self, depth: u64, number: u32, kind: u32, value: u64, start: u64, end: u64, tag: u64) {
        self.out[self.count] = Record { depth, number: number as u64, kind: kind as u64, value, start, end, tag };
        self.count += 1;
    }
}

const DROPPED: bool = cfg!(feature = "dropped");
const DROPPED_SPAN: u32 = 25;

const WIRE: [u8; 19] = [9, 1, 5, 0, 0, 0, 1, 5, 0, 2, 9, 2, 2, 0, 0, 5, 1, 0, 0];

fn scalar(is: &mut CodedInputStream, kind: u32) -> Result<u64> {
    Ok(match kind {
        1 | 6 => is.read_fixed64()?,
        2 | 7 => is.read_fixed32()? as u64,
        3 => is.read_int64()? as u64,
        4 => is.read_uint64()?,
        5 | 14 => is.read_int32()? as i64 as u64,
        8 => is.read_bool()? as u64,
        13 => is.read_uint32()? as u64,
        15 => is.read_sfixed32()? as i64 as u64,
        16 => is.read_sfixed64()? as u64,
        17 => is.read_sint32()? as i64 as u64,
        _ => is.read_sint64()? as u64,
    })
}

fn fields(is: &mut CodedInputStream, ty: u32, depth: u64, schema: &[Entry], room: &mut Room, bytes: &mut Vec<u8>, text: &mut String) -> Result<()> {
    loop {
        let at = is.pos();
        let Some(tag) = is.read_raw_tag_or_eof()? else {
            return Ok(());
        };
        let (number, w) = (tag >> 3, (tag & 7) as u8);
        let (kind, packed, child) = match schema.iter().find(|e| e.owner == ty && e.number == number) {
            Some(e) if WIRE[e.kind as usize] == w => (e.kind, false, e.child),
            Some(e) if w == 2 && e.repeated == 1 => (e.kind, true, e.child),
            _ => (0, false, 0),
        };
        if kind == 0 {
            // of fields that the schema does not have, the inputs have groups alone
            skip_field_for_tag(tag, is)?;
            assert!(w == 3);
            if DROPPED {
                room.put(depth, number, DROPPED_SPAN, 0, at, is.pos(), at);
            }
        } else if w != 2 {
            let start = is.pos();
            let value = scalar(is, kind)?;
            room.put(depth, number, kind, value, start, is.pos(), at);
        } else if packed || kind == 11 {
            let len = is.read_raw_varint64()?;
            let start = is.pos();
            if packed && len == 0 {
                if DROPPED {
                    room.put(depth, number, DROPPED_SPAN, 0, at, start, at);
                }
                continue;
            }
            let old = is.push_limit(len)?;
            room.put(depth, number, if packed { 20 } else { 11 }, 0, start, start + len, at);
            if packed {
                while !is.eof()? {
                    let start = is.pos();
                    let value = scalar(is, kind)?;
                    room.put(depth + 1, number, kind, value, start, is.pos(), at);
                }
            } else {
                fields(is, child, depth + 1, schema, room, bytes, text)?;
            }
            is.pop_limit(old);
        } else {
            let length = if kind == 9 {
                is.read_string_into(text)?;
                text.len()
            } else {
                is.read_bytes_into(bytes)?;
                bytes.len()
            } as u64;
            room.put(depth, number, kind, 0, is.pos() - length, is.pos(), at);
        }
    }
}

/// The count of the records; with 2^32 added where the input is refused.
#[cfg_attr(not(feature = "dropped"), export_name = "crate_records")]
#[cfg_attr(feature = "dropped", export_name = "crate_records_dropped")]
pub unsafe extern "C" fn crate_records(p: *const u8, n: usize, s: *const Entry, sn: usize, o: *mut Record, on: usize) -> u64 {
    let mut room = Room { out: from_raw_parts_mut(o, on), count: 0 };
    let mut is = CodedInputStream::from_bytes(from_raw_parts(p, n));
    let done = fields(&mut is, 0, 0, from_raw_parts(s, sn), &mut room, &mut Vec::new(), &mut String::new());
    room.count as u64 + if done.is_err() { 1 << 32 } else { 0 }
}
