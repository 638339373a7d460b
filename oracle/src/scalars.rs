//! The crate's calls for each kind of number. Values are 64-bit patterns, signed kinds sign-extended.
use protobuf::{rt, CodedInputStream, CodedOutputStream, Enum, EnumOrUnknown, Result};

/// An enum for the calls that are generic over one: every number is a value of it.
#[derive(Clone, Copy, PartialEq, Eq, Debug, Default)]
pub struct Any(i32);

impl Enum for Any {
    const NAME: &'static str = "Any";
    const VALUES: &'static [Any] = &[];
    fn value(&self) -> i32 {
        self.0
    }
    fn from_i32(value: i32) -> Option<Any> {
        Some(Any(value))
    }
    fn from_str(_: &str) -> Option<Any> {
        None
    }
}

pub fn enums(values: &[u64]) -> Vec<EnumOrUnknown<Any>> {
    values.iter().map(|v| EnumOrUnknown::from_i32(*v as i32)).collect()
}

/// Whether the pattern is one of the kind's values.
pub fn fits(kind: u32, v: u64) -> bool {
    match kind {
        5 | 14 | 15 | 17 => v as i32 as i64 as u64 == v,
        2 | 7 | 13 => v <= u32::MAX as u64,
        8 => v <= 1,
        1 | 3 | 4 | 6 | 16 | 18 => true,
        _ => false,
    }
}

pub fn read(kind: u32, is: &mut CodedInputStream) -> Result<u64> {
    Ok(match kind {
        1 => is.read_double()?.to_bits(),
        2 => is.read_float()?.to_bits() as u64,
        3 => is.read_int64()? as u64,
        4 => is.read_uint64()?,
        5 => is.read_int32()? as i64 as u64,
        6 => is.read_fixed64()?,
        7 => is.read_fixed32()? as u64,
        8 => is.read_bool()? as u64,
        13 => is.read_uint32()? as u64,
        14 => is.read_enum_or_unknown::<Any>()?.value() as i64 as u64,
        15 => is.read_sfixed32()? as i64 as u64,
        16 => is.read_sfixed64()? as u64,
        17 => is.read_sint32()? as i64 as u64,
        18 => is.read_sint64()? as u64,
        _ => panic!("no number"),
    })
}

/// The values of a packed field; those before a fault stay in `out`.
pub fn read_packed(kind: u32, is: &mut CodedInputStream, out: &mut Vec<u64>) -> Result<()> {
    macro_rules! by {
        ($call:ident, $v:ident => $pattern:expr) => {{
            let mut values = Vec::new();
            let answer = is.$call(&mut values);
            out.extend(values.into_iter().map(|$v| $pattern));
            answer
        }};
    }
    match kind {
        1 => by!(read_repeated_packed_double_into, v => v.to_bits()),
        2 => by!(read_repeated_packed_float_into, v => v.to_bits() as u64),
        3 => by!(read_repeated_packed_int64_into, v => v as u64),
        4 => by!(read_repeated_packed_uint64_into, v => v),
        5 => by!(read_repeated_packed_int32_into, v => v as i64 as u64),
        6 => by!(read_repeated_packed_fixed64_into, v => v),
        7 => by!(read_repeated_packed_fixed32_into, v => v as u64),
        8 => by!(read_repeated_packed_bool_into, v => v as u64),
        13 => by!(read_repeated_packed_uint32_into, v => v as u64),
        14 => {
            let mut values: Vec<EnumOrUnknown<Any>> = Vec::new();
            let answer = rt::read_repeated_packed_enum_or_unknown_into(is, &mut values);
            out.extend(values.into_iter().map(|v| v.value() as i64 as u64));
            answer
        }
        15 => by!(read_repeated_packed_sfixed32_into, v => v as i64 as u64),
        16 => by!(read_repeated_packed_sfixed64_into, v => v as u64),
        17 => by!(read_repeated_packed_sint32_into, v => v as i64 as u64),
        18 => by!(read_repeated_packed_sint64_into, v => v as u64),
        _ => panic!("no number"),
    }
}

/// The size of a field, as generated code computes it: its fixed sizes are constants there.
pub fn size(kind: u32, number: u32, v: u64) -> u64 {
    match kind {
        1 | 6 | 16 => rt::tag_size(number) + 8,
        2 | 7 | 15 => rt::tag_size(number) + 4,
        3 => rt::int64_size(number, v as i64),
        4 => rt::uint64_size(number, v),
        5 | 14 => rt::int32_size(number, v as i32),
        8 => rt::tag_size(number) + 1,
        13 => rt::uint32_size(number, v as u32),
        17 => rt::sint32_size(number, v as i32),
        18 => rt::sint64_size(number, v as i64),
        _ => panic!("no number"),
    }
}

fn of<T>(values: &[u64], f: impl Fn(u64) -> T) -> Vec<T> {
    values.iter().map(|v| f(*v)).collect()
}

pub fn packed_size(kind: u32, number: u32, values: &[u64]) -> u64 {
    match kind {
        1 => rt::vec_packed_double_size(number, &of(values, f64::from_bits)),
        2 => rt::vec_packed_float_size(number, &of(values, |v| f32::from_bits(v as u32))),
        3 => rt::vec_packed_int64_size(number, &of(values, |v| v as i64)),
        4 => rt::vec_packed_uint64_size(number, values),
        5 => rt::vec_packed_int32_size(number, &of(values, |v| v as i32)),
        6 => rt::vec_packed_fixed64_size(number, values),
        7 => rt::vec_packed_fixed32_size(number, &of(values, |v| v as u32)),
        8 => rt::vec_packed_bool_size(number, &of(values, |v| v != 0)),
        13 => rt::vec_packed_uint32_size(number, &of(values, |v| v as u32)),
        14 => rt::vec_packed_enum_or_unknown_size(number, &enums(values)),
        15 => rt::vec_packed_sfixed32_size(number, &of(values, |v| v as i32)),
        16 => rt::vec_packed_sfixed64_size(number, &of(values, |v| v as i64)),
        17 => rt::vec_packed_sint32_size(number, &of(values, |v| v as i32)),
        18 => rt::vec_packed_sint64_size(number, &of(values, |v| v as i64)),
        _ => panic!("no number"),
    }
}

pub fn write(os: &mut CodedOutputStream, kind: u32, number: u32, v: u64) -> Result<()> {
    match kind {
        1 => os.write_double(number, f64::from_bits(v)),
        2 => os.write_float(number, f32::from_bits(v as u32)),
        3 => os.write_int64(number, v as i64),
        4 => os.write_uint64(number, v),
        5 => os.write_int32(number, v as i32),
        6 => os.write_fixed64(number, v),
        7 => os.write_fixed32(number, v as u32),
        8 => os.write_bool(number, v != 0),
        13 => os.write_uint32(number, v as u32),
        14 => os.write_enum(number, v as i32),
        15 => os.write_sfixed32(number, v as i32),
        16 => os.write_sfixed64(number, v as i64),
        17 => os.write_sint32(number, v as i32),
        18 => os.write_sint64(number, v as i64),
        _ => panic!("no number"),
    }
}

pub fn write_packed(os: &mut CodedOutputStream, kind: u32, number: u32, values: &[u64]) -> Result<()> {
    match kind {
        1 => os.write_repeated_packed_double(number, &of(values, f64::from_bits)),
        2 => os.write_repeated_packed_float(number, &of(values, |v| f32::from_bits(v as u32))),
        3 => os.write_repeated_packed_int64(number, &of(values, |v| v as i64)),
        4 => os.write_repeated_packed_uint64(number, values),
        5 => os.write_repeated_packed_int32(number, &of(values, |v| v as i32)),
        6 => os.write_repeated_packed_fixed64(number, values),
        7 => os.write_repeated_packed_fixed32(number, &of(values, |v| v as u32)),
        8 => os.write_repeated_packed_bool(number, &of(values, |v| v != 0)),
        13 => os.write_repeated_packed_uint32(number, &of(values, |v| v as u32)),
        14 => os.write_repeated_packed_enum_or_unknown(number, &enums(values)),
        15 => os.write_repeated_packed_sfixed32(number, &of(values, |v| v as i32)),
        16 => os.write_repeated_packed_sfixed64(number, &of(values, |v| v as i64)),
        17 => os.write_repeated_packed_sint32(number, &of(values, |v| v as i32)),
        18 => os.write_repeated_packed_sint64(number, &of(values, |v| v as i64)),
        _ => panic!("no number"),
    }
}
