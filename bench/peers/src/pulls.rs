// The pull loop, by CodedInputStream's public calls.
use protobuf::CodedInputStream;
use std::slice::from_raw_parts;

/// The pull loop: the exclusive or of all varints of a message whose fields are varints.
#[no_mangle]
pub unsafe extern "C" fn crate_pull(p: *const u8, n: usize) -> u64 {
    let mut is = CodedInputStream::from_bytes(from_raw_parts(p, n));
    let mut acc = 0;
    while let Ok(Some(_)) = is.read_raw_tag_or_eof() {
        match is.read_uint64() {
            Ok(v) => acc ^= v,
            Err(_) => return acc,
        }
    }
    acc
}
