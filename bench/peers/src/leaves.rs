// Varints, texts and skips, by the crate and by the standard library.
use protobuf::rt::{skip_field_for_tag, WireType};
use protobuf::{CodedInputStream, CodedOutputStream};
use std::slice::{from_raw_parts, from_raw_parts_mut};

#[no_mangle]
pub unsafe extern "C" fn crate_varints(p: *const u8, n: usize) -> u64 {
    let mut is = CodedInputStream::from_bytes(from_raw_parts(p, n));
    let mut acc = 0;
    while !is.eof().unwrap() {
        match is.read_raw_varint64() {
            Ok(v) => acc ^= v,
            Err(_) => return acc,
        }
    }
    acc
}

#[no_mangle]
pub unsafe extern "C" fn crate_put_varints(v: *const u64, n: usize, o: *mut u8, m: usize) -> usize {
    let mut os = CodedOutputStream::bytes(from_raw_parts_mut(o, m));
    for x in from_raw_parts(v, n) {
        if os.write_raw_varint64(*x).is_err() {
            return 0;
        }
    }
    os.total_bytes_written() as usize
}

#[no_mangle]
pub unsafe extern "C" fn std_utf8(p: *const u8, n: usize) -> u64 {
    match std::str::from_utf8(from_raw_parts(p, n)) {
        Ok(t) => t.len() as u64,
        Err(e) => e.valid_up_to() as u64,
    }
}

// The group whose fields these are, to the end of the bytes.
#[no_mangle]
pub unsafe extern "C" fn crate_group(p: *const u8, n: usize) -> u64 {
    let mut is = CodedInputStream::from_bytes(from_raw_parts(p, n));
    match is.skip_field(WireType::StartGroup) {
        Ok(()) => is.pos(),
        Err(_) => 0,
    }
}

// The crate has no document check. This is the nearest: whether all is skipped, field by field.
#[no_mangle]
pub unsafe extern "C" fn crate_run(p: *const u8, n: usize) -> u64 {
    let mut is = CodedInputStream::from_bytes(from_raw_parts(p, n));
    loop {
        match is.read_raw_tag_or_eof() {
            Ok(Some(tag)) => {
                if skip_field_for_tag(tag, &mut is).is_err() {
                    return 0;
                }
            }
            Ok(None) => return (is.pos() == n as u64) as u64,
            Err(_) => return 0,
        }
    }
}
