//! Prints, for each row of docs/DIFFERENCES.md, the shortest input that shows it and what the crate says of it. The output is kept in findings.txt.
use std::cell::Cell;
use std::panic::{catch_unwind, AssertUnwindSafe};

use oracle::scalars::{self, enums, Any};
use oracle::words::{hex, stream};
use oracle::writing::Announced;
use protobuf::descriptor::{DescriptorProto, FileDescriptorProto};
use protobuf::reflect::FileDescriptor;
use protobuf::rt::{self, WireType};
use protobuf::well_known_types::struct_::Value;
use protobuf::{CodedInputStream, CodedOutputStream, Message, MessageDyn, MessageFull, Result, UnknownFields};

/// An allocator that notes the largest piece asked for.
struct Counting;
thread_local!(static LARGEST: Cell<usize> = const { Cell::new(0) });

unsafe impl std::alloc::GlobalAlloc for Counting {
    unsafe fn alloc(&self, layout: std::alloc::Layout) -> *mut u8 {
        let _ = LARGEST.try_with(|l| l.set(l.get().max(layout.size())));
        std::alloc::System.alloc(layout)
    }
    unsafe fn dealloc(&self, at: *mut u8, layout: std::alloc::Layout) {
        std::alloc::System.dealloc(at, layout)
    }
}

#[global_allocator]
static ALLOCATOR: Counting = Counting;

fn title(text: &str) {
    println!("\n== {}", text);
}

/// A result as the crate shows it: its value, or its error's own words.
fn told<T: std::fmt::Debug>(answer: Result<T>) -> String {
    match answer {
        Ok(v) => format!("ok {:?}", v),
        Err(e) => {
            let text = format!("{:?}", e);
            let own = text.strip_prefix("Error(").and_then(|t| t.strip_suffix(')')).unwrap_or(&text);
            format!("refused {}", own.strip_prefix("WireError(").and_then(|t| t.strip_suffix(')')).unwrap_or(own))
        }
    }
}

fn panics<T>(f: impl FnOnce() -> T) -> String {
    match catch_unwind(AssertUnwindSafe(f)) {
        Ok(_) => "no panic".to_string(),
        Err(p) => {
            let text = p.downcast_ref::<String>().cloned().or_else(|| p.downcast_ref::<&str>().map(|s| s.to_string()));
            format!("panic: {}", text.unwrap_or_default().replace('\n', " "))
        }
    }
}

fn row(what: &str, input: &[u8], said: String) {
    println!("{:<58} {:<26} {}", what, hex(input), said);
}

fn over(what: &str, input: &[u8], limited: bool, f: impl FnOnce(&mut CodedInputStream) -> String) {
    let mut is = stream(input, limited, 0);
    let said = f(&mut is);
    row(what, input, format!("{}, at {}", said, is.pos()));
}

fn wide_values() {
    title("over-wide values of 32-bit kinds");
    over("read_int32", &[0x80, 0x80, 0x80, 0x80, 8], true, |is| told(is.read_int32()));
    over("read_enum_or_unknown", &[0x80, 0x80, 0x80, 0x80, 8], true, |is| told(is.read_enum_or_unknown::<Any>().map(|e| e.value())));
    over("read_uint32", &[0x80, 0x80, 0x80, 0x80, 0x10], true, |is| told(is.read_uint32()));
    over("read_sint32", &[0x80, 0x80, 0x80, 0x80, 0x10], true, |is| told(is.read_sint32()));
    over("read_raw_tag_or_eof", &[0x80, 0x80, 0x80, 0x80, 0x10], true, |is| told(is.read_raw_tag_or_eof()));
    over("read_bool", &[0x80, 0x80, 0x80, 0x80, 0x10], true, |is| told(is.read_bool()));
}

fn packed_enums() {
    title("size of a packed negative enum, and what is then written");
    let minus = u64::MAX;
    println!("vec_packed_enum_or_unknown_size(1, [-1]) = {}", rt::vec_packed_enum_or_unknown_size(1, &enums(&[minus])));
    println!("vec_packed_int32_size(1, [-1])           = {}", rt::vec_packed_int32_size(1, &[-1]));
    let mut out = Vec::new();
    let mut os = CodedOutputStream::vec(&mut out);
    scalars::write_packed(&mut os, 14, 1, &[minus]).expect("a vector takes all");
    os.flush().expect("a vector takes all");
    drop(os);
    println!("write_repeated_packed_enum_or_unknown(1, [-1]) writes {}", hex(&out));
    let mut is = stream(&out, true, 0);
    let tag = told(is.read_raw_tag_or_eof());
    let mut values = Vec::new();
    let read = told(rt::read_repeated_packed_enum_or_unknown_into::<Any>(&mut is, &mut values));
    println!("read again: tag {}, elements {}, at {}", tag, read, is.pos());
}

/// So many messages in a google.protobuf.Value: ListValue (its field 6) and Value (field 1 of that), alternating.
fn nested_lists(levels: usize) -> Vec<u8> {
    let mut b = Vec::new();
    for i in (0..levels).rev() {
        let mut outer = vec![if i % 2 == 0 { 0x32 } else { 0x0a }];
        let mut os = CodedOutputStream::vec(&mut outer);
        os.write_bytes_no_tag(&b).expect("a vector takes all");
        os.flush().expect("a vector takes all");
        drop(os);
        b = outer;
    }
    b
}

fn levels() {
    title("levels: merge_message counts, merge_message_dyn does not (google.protobuf.Value and ListValue in turn)");
    for levels in [100, 101] {
        let b = nested_lists(levels);
        println!("{} nested messages, merge_message     {}", levels, told(Value::parse_from_bytes(&b).map(|_| "read")));
        println!("{} nested messages, merge_message_dyn {}", levels, told(dynamic(&b).map(|_| "read")));
    }
}

/// The same bytes by a message that is known by its descriptor alone: its fields are read by merge_message_dyn.
fn dynamic(bytes: &[u8]) -> Result<Box<dyn MessageDyn>> {
    let file: FileDescriptorProto = Value::descriptor().file_descriptor_proto().clone();
    let file = FileDescriptor::new_dynamic(file, &[]).expect("a file");
    let message = file.message_by_package_relative_name("Value").expect("a message");
    message.parse_from_bytes(bytes)
}

fn skips() {
    title("the two skips, after the tag 0b");
    let field: fn(&mut CodedInputStream) -> String = |is| told(rt::skip_field_for_tag(11, is));
    let group: fn(&mut CodedInputStream) -> String = |is| told(rt::read_unknown_or_skip_group(11, is, &mut UnknownFields::new()));
    let hundred = [vec![0x0b; 100], vec![0x0c; 101]].concat();
    for (name, f) in [("skip_field_for_tag", field), ("read_unknown_or_skip_group", group)] {
        over(name, &[], true, f);
        over(name, &[0x13], true, f);
        over(name, &[0x14], true, f);
        let mut is = stream(&hundred, true, 0);
        println!("{:<58} {:<26} {}, at {}", name, "100 times 0b, 101 times 0c", f(&mut is), is.pos());
    }
    title("an end-group tag closes any group; as a field it is refused");
    over("skip_field_for_tag, tag 0c", &[], true, |is| told(rt::skip_field_for_tag(12, is)));
}

fn lengths() {
    title("a message or packed length past the slice: a bare stream, and one with push_limit(length)");
    for limited in [false, true] {
        let how = if limited { "limited" } else { "bare" };
        over(&format!("{}: merge_message", how), &[5], limited, |is| told(is.merge_message(&mut Value::new())));
        over(&format!("{}: read_repeated_packed_int32_into", how), &[5], limited, |is| told(is.read_repeated_packed_int32_into(&mut Vec::new())));
        over(&format!("{}: read_repeated_packed_int32_into", how), &[5, 1, 2], limited, |is| {
            let mut v = Vec::new();
            let said = told(is.read_repeated_packed_int32_into(&mut v));
            format!("{}, values {:?}", said, v)
        });
        over(&format!("{}: read_bytes", how), &[5], limited, |is| told(is.read_bytes()));
        over(&format!("{}: skip_field_for_tag 0a", how), &[5], limited, |is| told(rt::skip_field_for_tag(10, is)));
    }
    println!("Value::parse_from_bytes, list_value of 5 bytes that are not there: 3205  {}", told(Value::parse_from_bytes(&[0x32, 5]).map(|v| v.to_string())));
    over("bare, inside a message: the outer limit holds", &[2, 0x32, 5], false, |is| told(is.merge_message(&mut Value::new())));
    let huge = [0xff, 0xff, 0xff, 0xff, 0xff, 0xff, 0xff, 0xff, 0xff, 1];
    over("bare: merge_message of 2^64-1", &huge, false, |is| told(is.merge_message(&mut Value::new())));
}

fn panicking() {
    title("panics where the rules refuse");
    let into = |f: &dyn Fn(&mut CodedOutputStream) -> Result<()>| {
        let mut out = Vec::new();
        let mut os = CodedOutputStream::vec(&mut out);
        f(&mut os)
    };
    println!("write_tag(0, Varint)          {}", panics(|| into(&|os| os.write_tag(0, WireType::Varint))));
    println!("write_tag(536870912, Varint)  {}", panics(|| into(&|os| os.write_tag(536870912, WireType::Varint))));
    println!("write_unknown(0, ..)          {}", panics(|| into(&|os| os.write_unknown(0, protobuf::UnknownValueRef::Varint(1)))));
    println!("WireType::new(6)              {:?}", WireType::new(6));
    println!("tag_size(536870912)           {}, no panic and no refusal", rt::tag_size(536870912));
}

fn outputs() {
    title("output too short");
    let value = [0x96u8, 1];
    let mut room = [0xaau8; 2];
    let mut os = CodedOutputStream::bytes(&mut room);
    let said = told(os.write_bytes(1, &value));
    drop(os);
    println!("write_bytes(1, 9601) into two bytes: {}; the room is then {}", said, hex(&room));
    let mut message = Value::new();
    message.set_bool_value(true);
    let mut room = [0xaau8; 1];
    let said = told(message.write_to(&mut CodedOutputStream::bytes(&mut room)));
    println!("Message::write_to into one byte of two: {}; the room is then {}", said, hex(&room));
    println!("a message of 2147483648 bytes: {}", told(Announced(2147483648).written()));
    println!("a message of 2147483647 bytes: {}", told(Announced(2147483647).written()));
}

fn unknown_order() {
    title("order of unknown fields: read, and written again");
    let read = |b: &[u8]| {
        let mut m = DescriptorProto::new();
        m.merge_from_bytes(b).expect("good bytes");
        hex(&m.write_to_bytes().expect("a vector takes all"))
    };
    for b in [&[0xf8u8, 1, 1, 0xf0, 1, 2, 0xf8, 1, 3][..], &[0xf8, 1, 1, 0xfd, 1, 2, 0, 0, 0], &[0xf3, 1, 0xf4, 1]] {
        println!("{} is written again as {}", hex(b), read(b));
    }
}

fn memory() {
    title("memory asked for before a length is judged (largest piece, bytes)");
    let most = |b: &[u8], f: &dyn Fn(&mut CodedInputStream) -> String| {
        let mut is = stream(b, true, 0);
        LARGEST.with(|l| l.set(0));
        let said = f(&mut is);
        (LARGEST.with(Cell::get), said)
    };
    let long = [0x80, 0xad, 0xe2, 4];
    let packed = most(&long, &|is| told(is.read_repeated_packed_int64_into(&mut Vec::new())));
    println!("limited: read_repeated_packed_int64_into, length 10,000,000 of 0: {} bytes, then {}", packed.0, packed.1);
    let bytes = most(&long, &|is| told(is.read_bytes()));
    println!("limited: read_bytes, length 10,000,000 of 0: {} bytes, then {}", bytes.0, bytes.1);
    LARGEST.with(|l| l.set(0));
    let said = told(CodedInputStream::from_bytes(&long).read_bytes());
    println!("bare: read_bytes, length 10,000,000 of 0: {} bytes, then {}", LARGEST.with(Cell::get), said);
}

fn positions() {
    title("positions after a refused step (ours: unmoved)");
    over("read_raw_varint32, cut", &[0x80], true, |is| told(is.read_raw_varint32()));
    over("read_raw_varint32, bad", &[0x80, 0x80, 0x80, 0x80, 0x10], true, |is| told(is.read_raw_varint32()));
    over("read_int32, out of range", &[0x80, 0x80, 0x80, 0x80, 8], true, |is| told(is.read_int32()));
    over("read_fixed32, cut", &[1, 2, 3], true, |is| told(is.read_fixed32()));
    over("read_string, cut", &[2, 0x41], true, |is| told(is.read_string()));
    over("read_string, not UTF-8", &[1, 0xff], true, |is| told(is.read_string()));
    over("merge_message, length past the limit", &[5], true, |is| told(is.merge_message(&mut Value::new())));
    over("skip_field_for_tag 0b, bad tag inside", &[0x0e], true, |is| told(rt::skip_field_for_tag(11, is)));
}

/// U32Overflow comes after decode_varint32, which judges the fifth byte wherever five are in the slice; with fewer no number is above 32 bits.
fn no_overflow() {
    title("U32Overflow on a slice");
    let mut seen = [0u64; 3];
    let mut tried = |b: &[u8]| match CodedInputStream::from_bytes(b).read_raw_varint32() {
        Ok(_) => seen[0] += 1,
        Err(e) if format!("{:?}", e).contains("U32Overflow") => seen[2] += 1,
        Err(_) => seen[1] += 1,
    };
    let bytes = [0u8, 1, 0x0f, 0x10, 0x7f, 0x80, 0x81, 0x8f, 0x90, 0xff];
    for length in 0..=6usize {
        for mut i in 0..bytes.len().pow(length as u32) {
            let b: Vec<u8> = (0..length)
                .map(|_| {
                    let x = bytes[i % bytes.len()];
                    i /= bytes.len();
                    x
                })
                .collect();
            tried(&b);
        }
    }
    println!("every slice of up to 6 of the bytes {}: read {}, refused otherwise {}, U32Overflow {}", hex(&bytes), seen[0], seen[1], seen[2]);
    let b = [0xff, 0xff, 0xff, 0xff, 0x7f];
    let mut reader = std::io::BufReader::with_capacity(1, &b[..]);
    println!(
        "the same crate over a BufRead that gives a byte at a time, {}: {}",
        hex(&b),
        told(CodedInputStream::from_buf_read(&mut reader).read_raw_varint32())
    );
}

fn kinds() {
    title("a known number with another wire type (google.protobuf.Value, 1 enum: 0a00)");
    println!(
        "generated code {}",
        told(Value::parse_from_bytes(&[0x0a, 0]).map(|v| v.unknown_fields().iter().map(|u| format!("unknown {:?}", u)).collect::<Vec<_>>()))
    );
    println!("dynamic message {}", told(dynamic(&[0x0a, 0]).map(|_| "read")));
    title("kind 10, a bool above 1, and a group as an unknown value");
    println!("WireType::for_type(TYPE_GROUP) = {:?}", WireType::for_type(protobuf::descriptor::field_descriptor_proto::Type::TYPE_GROUP));
    println!("bool 2 is read as {}", told(stream(&[2], true, 0).read_bool()));
    println!("read_unknown(StartGroup) over 0c gives {}", told(stream(&[0x0c], true, 0).read_unknown(WireType::StartGroup)));
}

/// A length past the end of a segment file, as the crate's streams answer it.
fn segment() {
    title("a segment's length past its end (the front, then 05 61): where the stream is then");
    let bytes = b"WFM\x01\x00\x05a";
    let after = |limited, call: fn(&mut CodedInputStream, u32) -> Result<()>| {
        let mut is = stream(bytes, limited, 0);
        is.skip_raw_bytes(5).expect("a front");
        let length = is.read_raw_varint32().expect("a length");
        let said = told(call(&mut is, length));
        format!("{} at {}", said, is.pos())
    };
    for (name, limited) in [("bare", false), ("limited", true)] {
        row(&format!("skip_raw_bytes, {}", name), bytes, after(limited, |is, n| is.skip_raw_bytes(n)));
        row(&format!("read_raw_bytes, {}", name), bytes, after(limited, |is, n| is.read_raw_bytes(n).map(|_| ())));
    }
}

fn main() {
    std::panic::set_hook(Box::new(|_| {}));
    println!("What the crate protobuf {} says, by a run. Columns: call, input in hex, answer and position.", protobuf::VERSION);
    wide_values();
    packed_enums();
    levels();
    skips();
    lengths();
    panicking();
    outputs();
    unknown_order();
    memory();
    positions();
    no_overflow();
    kinds();
    segment();
}
