// A segment by the crate's streams. The crate has no such file: its front is tested and written here, lengths and contents by the crate.
use protobuf::{CodedInputStream, CodedOutputStream, Result};
use std::slice::{from_raw_parts, from_raw_parts_mut};

const FRONT: &[u8] = b"WFM\x01\x00";

fn read(s: &[u8], room: &mut [u64]) -> Result<u64> {
    let mut is = CodedInputStream::from_bytes(&s[FRONT.len()..]);
    let mut count = 0;
    for range in room.chunks_exact_mut(2) {
        if is.eof()? {
            break;
        }
        let length = is.read_raw_varint32()?;
        let start = FRONT.len() as u64 + is.pos();
        is.skip_raw_bytes(length)?;
        range[0] = start;
        range[1] = start + length as u64;
        count += 1;
    }
    Ok(count)
}

// The count of the messages; all bits where it is refused.
#[no_mangle]
pub unsafe extern "C" fn crate_segment_read(p: *const u8, n: usize, room: *mut u64, most: usize) -> u64 {
    let s = from_raw_parts(p, n);
    if !s.starts_with(FRONT) {
        return u64::MAX;
    }
    read(s, from_raw_parts_mut(room, most)).unwrap_or(u64::MAX)
}

fn write(ranges: &[u64], payload: &[u8], out: &mut [u8]) -> Result<u64> {
    let mut os = CodedOutputStream::bytes(out);
    os.write_raw_bytes(FRONT)?;
    for range in ranges.chunks_exact(2) {
        let message = &payload[range[0] as usize..range[1] as usize];
        os.write_raw_varint32(message.len() as u32)?;
        os.write_raw_bytes(message)?;
    }
    Ok(os.total_bytes_written())
}

// The size; 0 where it is refused.
#[no_mangle]
pub unsafe extern "C" fn crate_segment_write(ranges: *const u64, count: usize, p: *const u8, n: usize, out: *mut u8, m: usize) -> u64 {
    write(from_raw_parts(ranges, count), from_raw_parts(p, n), from_raw_parts_mut(out, m)).unwrap_or(0)
}
