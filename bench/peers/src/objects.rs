// Parsers into objects, and writers from them. All of them allocate, for each message, each string and each list.
// A parser answers how many fields and elements of the root there are, or -1 where it refuses the input.
use crate::generated::Root;
use protobuf::reflect::{FileDescriptor, MessageDescriptor};
use protobuf::{CodedOutputStream, Message, MessageFull};
use prost::Message as Prost;
use std::slice::{from_raw_parts, from_raw_parts_mut};
use std::sync::OnceLock;

// ---- the crate's generated code

#[no_mangle]
pub unsafe extern "C" fn crate_parse(p: *const u8, n: usize) -> u64 {
    match Root::parse_from_bytes(from_raw_parts(p, n)) {
        Ok(m) => (m.i.len() + m.s.len() + m.m.len() + m.p.len() + m.f.len() + m.t.len()) as u64,
        Err(_) => u64::MAX,
    }
}

#[no_mangle]
pub unsafe extern "C" fn crate_new(p: *const u8, n: usize) -> *mut Root {
    match Root::parse_from_bytes(from_raw_parts(p, n)) {
        Ok(m) => Box::into_raw(Box::new(m)),
        Err(_) => std::ptr::null_mut(),
    }
}

#[no_mangle]
pub unsafe extern "C" fn crate_write(m: *const Root, o: *mut u8, on: usize) -> u64 {
    let size = (*m).compute_size() as usize;
    let mut os = CodedOutputStream::bytes(&mut from_raw_parts_mut(o, on)[..size]);
    (*m).write_to_with_cached_sizes(&mut os).unwrap();
    size as u64
}

// ---- its dynamic messages: the crate's own reader that a schema drives

static ROOT: OnceLock<MessageDescriptor> = OnceLock::new();

fn root() -> &'static MessageDescriptor {
    ROOT.get_or_init(|| {
        let file = Root::descriptor().file_descriptor().proto().clone();
        FileDescriptor::new_dynamic(file, &[]).unwrap().message_by_package_relative_name("Root").unwrap()
    })
}

#[no_mangle]
pub unsafe extern "C" fn crate_dynamic(p: *const u8, n: usize) -> u64 {
    let mut m = root().new_instance();
    match m.merge_from_bytes_dyn(from_raw_parts(p, n)) {
        Ok(()) => root().fields().map(|f| f.get_repeated(&*m).len() as u64).sum(),
        Err(_) => u64::MAX,
    }
}

// ---- prost

#[derive(Clone, PartialEq, prost::Message)]
pub struct ProstInner {
    #[prost(uint32, repeated, packed = "false", tag = "1")]
    a: Vec<u32>,
    #[prost(bytes = "vec", repeated, tag = "2")]
    b: Vec<Vec<u8>>,
    #[prost(message, repeated, tag = "3")]
    c: Vec<ProstInner>,
}

#[derive(Clone, PartialEq, prost::Message)]
pub struct ProstRoot {
    #[prost(int32, repeated, packed = "false", tag = "1")]
    i: Vec<i32>,
    #[prost(string, repeated, tag = "2")]
    s: Vec<String>,
    #[prost(message, repeated, tag = "3")]
    m: Vec<ProstInner>,
    #[prost(sint32, repeated, tag = "4")]
    p: Vec<i32>,
    #[prost(float, repeated, packed = "false", tag = "5")]
    f: Vec<f32>,
    #[prost(bool, repeated, packed = "false", tag = "7")]
    t: Vec<bool>,
}

#[no_mangle]
pub unsafe extern "C" fn prost_parse(p: *const u8, n: usize) -> u64 {
    match ProstRoot::decode(from_raw_parts(p, n)) {
        Ok(m) => (m.i.len() + m.s.len() + m.m.len() + m.p.len() + m.f.len() + m.t.len()) as u64,
        Err(_) => u64::MAX,
    }
}

#[no_mangle]
pub unsafe extern "C" fn prost_new(p: *const u8, n: usize) -> *mut ProstRoot {
    match ProstRoot::decode(from_raw_parts(p, n)) {
        Ok(m) => Box::into_raw(Box::new(m)),
        Err(_) => std::ptr::null_mut(),
    }
}

#[no_mangle]
pub unsafe extern "C" fn prost_write(m: *const ProstRoot, o: *mut u8, on: usize) -> u64 {
    let mut out = from_raw_parts_mut(o, on);
    match (*m).encode(&mut out) {
        Ok(()) => (on - out.len()) as u64,
        Err(_) => 0,
    }
}
