// The pull loop over a message of ../bench.proto, each value by its type, by CodedInputStream's public calls.
use protobuf::{rt::skip_field_for_tag, CodedInputStream, Result};
use std::slice::from_raw_parts;

struct Sum {
    acc: u64,
    bytes: Vec<u8>,
    text: String,
}

// The fields of the root, or of an inner message. One loop for both: with one for each it takes more, as the call for a tag is then no longer inlined.
fn fields(is: &mut CodedInputStream, inner: bool, sum: &mut Sum) -> Result<()> {
    while let Some(tag) = is.read_raw_tag_or_eof()? {
        match (tag, inner) {
            (8, false) => sum.acc ^= is.read_int32()? as i64 as u64,
            (8, true) => sum.acc ^= is.read_uint32()? as u64,
            (18, false) => {
                is.read_string_into(&mut sum.text)?;
                sum.acc ^= sum.text.len() as u64;
            }
            (18, true) => {
                is.read_bytes_into(&mut sum.bytes)?;
                sum.acc ^= sum.bytes.len() as u64;
            }
            (26, _) | (34, false) => {
                let len = is.read_raw_varint64()?;
                let old = is.push_limit(len)?;
                sum.acc ^= len;
                if tag == 26 {
                    fields(is, true, sum)?;
                } else {
                    while !is.eof()? {
                        sum.acc ^= is.read_sint32()? as i64 as u64;
                    }
                }
                is.pop_limit(old);
            }
            (45, false) => sum.acc ^= is.read_fixed32()? as u64,
            (56, false) => sum.acc ^= is.read_bool()? as u64,
            _ => {
                let from = is.pos();
                skip_field_for_tag(tag, is)?;
                sum.acc ^= is.pos() - from;
            }
        }
    }
    Ok(())
}

/// The exclusive or of all values and of the lengths of contents, up to the first refusal. The stream counts no levels here, as only its calls that read whole messages do, and
/// a length of the root's that runs past the slice is not refused. With the slice's length pushed as a limit it is; that takes more on most inputs, so it is left out.
#[no_mangle]
pub unsafe extern "C" fn crate_fields(p: *const u8, n: usize) -> u64 {
    let mut sum = Sum { acc: 0, bytes: Vec::new(), text: String::new() };
    let _ = fields(&mut CodedInputStream::from_bytes(from_raw_parts(p, n)), false, &mut sum);
    sum.acc
}
