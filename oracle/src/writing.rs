//! Writing a list of records: as a message whose fields are written in the list's order by the calls that generated code has.
use protobuf::{rt, CodedInputStream, CodedOutputStream, Message, Result, SpecialFields, UnknownFields};

use crate::scalars;
use crate::words::{bytes, hex, number, records, schema, Entry, Line, Parsed, Record};

/// One field to write.
#[derive(Clone, PartialEq)]
enum Field {
    Number(u32, u32, u64),
    Text(u32, String),
    Bytes(u32, Vec<u8>),
    Nested(u32, Write),
    Packed(u32, u32, Vec<u64>),
    Unknown(UnknownFields),
}

#[derive(Clone, Default, PartialEq)]
struct Write {
    fields: Vec<Field>,
    special: SpecialFields,
}

/// Makes messages of a list. A list that no message can hold (mostly a bad one) makes none.
struct Maker<'a> {
    schema: Vec<Entry>,
    list: &'a [Record],
    payload: &'a [u8],
    at: usize,
}

impl Maker<'_> {
    fn message(&mut self, of_type: u32, depth: u64) -> Option<Write> {
        let mut fields = Vec::new();
        while self.at < self.list.len() && self.list[self.at].depth >= depth {
            fields.push(self.field(of_type, depth)?);
        }
        Some(Write { fields, special: SpecialFields::new() })
    }

    fn field(&mut self, of_type: u32, depth: u64) -> Option<Field> {
        let r = &self.list[self.at];
        self.at += 1;
        if r.depth != depth {
            return None;
        }
        let number = u32::try_from(r.number).ok()?;
        let entry = self.schema.iter().find(|e| e.owner == of_type && e.number == number).copied();
        Some(match r.kind {
            9 => Field::Text(number, String::from_utf8(self.content(r)?).ok()?),
            12 => Field::Bytes(number, self.content(r)?),
            11 => Field::Nested(number, self.message(entry?.child, depth + 1)?),
            20 => Field::Packed(number, entry?.kind, self.values(depth + 1)),
            21..=24 => Field::Unknown(self.unknown(number, r)?),
            kind => Field::Number(number, u32::try_from(kind).ok().filter(|k| scalars::fits(*k, r.value))?, r.value),
        })
    }

    fn content(&self, r: &Record) -> Option<Vec<u8>> {
        let range = usize::try_from(r.start).ok()?..usize::try_from(r.end).ok()?;
        self.payload.get(range).map(<[u8]>::to_vec)
    }

    fn values(&mut self, depth: u64) -> Vec<u64> {
        let here = self.list[self.at..].iter().take_while(|r| r.depth == depth).map(|r| r.value);
        let values: Vec<u64> = here.collect();
        self.at += values.len();
        values
    }

    fn unknown(&self, number: u32, r: &Record) -> Option<UnknownFields> {
        let mut fields = UnknownFields::new();
        match r.kind {
            21 => fields.add_varint(number, r.value),
            22 => fields.add_fixed64(number, r.value),
            23 => fields.add_length_delimited(number, self.content(r)?),
            _ => fields.add_fixed32(number, u32::try_from(r.value).ok()?),
        }
        Some(fields)
    }
}

impl Field {
    fn size(&self) -> u64 {
        match self {
            Field::Number(number, kind, v) => scalars::size(*kind, *number, *v),
            Field::Text(number, text) => rt::string_size(*number, text),
            Field::Bytes(number, content) => rt::bytes_size(*number, content),
            Field::Packed(number, kind, values) => scalars::packed_size(*kind, *number, values),
            Field::Unknown(fields) => rt::unknown_fields_size(fields),
            Field::Nested(number, message) => {
                let size = message.compute_size();
                rt::tag_size(*number) + rt::compute_raw_varint64_size(size) + size
            }
        }
    }

    fn write(&self, os: &mut CodedOutputStream) -> Result<()> {
        match self {
            Field::Number(number, kind, v) => scalars::write(os, *kind, *number, *v),
            Field::Text(number, text) => os.write_string(*number, text),
            Field::Bytes(number, content) => os.write_bytes(*number, content),
            Field::Packed(number, kind, values) => scalars::write_packed(os, *kind, *number, values),
            Field::Unknown(fields) => os.write_unknown_fields(fields),
            Field::Nested(number, message) => rt::write_message_field_with_cached_size(*number, message, os),
        }
    }

    /// The crate counts five bytes for each, and writes ten.
    fn packed_negative_enum(&self) -> bool {
        match self {
            Field::Packed(_, 14, values) => values.iter().any(|v| *v > i32::MAX as u64),
            Field::Nested(_, message) => message.packed_negative_enum(),
            _ => false,
        }
    }
}

impl Write {
    fn packed_negative_enum(&self) -> bool {
        self.fields.iter().any(Field::packed_negative_enum)
    }
}

impl Message for Write {
    const NAME: &'static str = "Write";
    fn compute_size(&self) -> u64 {
        let size = self.fields.iter().map(Field::size).sum();
        self.special.cached_size().set(size as u32);
        size
    }
    fn write_to_with_cached_sizes(&self, os: &mut CodedOutputStream) -> Result<()> {
        self.fields.iter().try_for_each(|f| f.write(os))
    }
    fn merge_from(&mut self, _: &mut CodedInputStream) -> Result<()> {
        unreachable!("only written")
    }
    fn new() -> Write {
        Write::default()
    }
    fn is_initialized(&self) -> bool {
        true
    }
    fn special_fields(&self) -> &SpecialFields {
        &self.special
    }
    fn mut_special_fields(&mut self) -> &mut SpecialFields {
        &mut self.special
    }
    fn default_instance() -> &'static Write {
        unreachable!("only written")
    }
}

/// A message that only says what its size is.
#[derive(Clone, Default, PartialEq)]
pub struct Announced(pub u64);

impl Announced {
    pub fn written(&self) -> Result<()> {
        self.write_to(&mut CodedOutputStream::new(&mut std::io::sink()))
    }
}

impl Message for Announced {
    const NAME: &'static str = "Announced";
    fn compute_size(&self) -> u64 {
        self.0
    }
    fn write_to_with_cached_sizes(&self, _: &mut CodedOutputStream) -> Result<()> {
        Ok(())
    }
    fn merge_from(&mut self, _: &mut CodedInputStream) -> Result<()> {
        Ok(())
    }
    fn new() -> Announced {
        Announced::default()
    }
    fn is_initialized(&self) -> bool {
        true
    }
    fn special_fields(&self) -> &SpecialFields {
        unreachable!("has none")
    }
    fn mut_special_fields(&mut self) -> &mut SpecialFields {
        unreachable!("has none")
    }
    fn default_instance() -> &'static Announced {
        unreachable!("not asked for")
    }
}

/// The list as a message, or why there is none.
fn message(schema_word: &str, list: &str, payload: &str) -> Parsed<std::result::Result<Write, String>> {
    let (schema, list, payload) = (schema(schema_word)?, records(list)?, bytes(payload)?);
    let mut maker = Maker { schema, list: &list, payload: &payload, at: 0 };
    Some(match maker.message(0, 0) {
        None => Err("left out: no message holds this list".to_string()),
        Some(m) if m.packed_negative_enum() => Err("left out: a packed negative enum".to_string()),
        Some(m) => Ok(m),
    })
}

pub fn size(line: &Line) -> Parsed<String> {
    let w = line.words(3)?;
    Some(match message(w[0], w[1], w[2])? {
        Err(why) => why,
        Ok(m) => format!("0 {} 0", m.compute_size()),
    })
}

/// Into a slice of the room, and into a vector. That the slice is too small is the crate's word for 12.
pub fn write(line: &Line) -> Parsed<String> {
    let w = line.words(4)?;
    let room: usize = number(w[3])?;
    let m = match message(w[0], w[1], w[2])? {
        Err(why) => return Some(why),
        Ok(m) => m,
    };
    let size = m.compute_size();
    let mut out = vec![0xaa; room];
    let answer = m.write_to(&mut CodedOutputStream::bytes(&mut out));
    Some(match answer {
        Ok(()) => {
            assert_eq!(m.write_to_bytes().expect("a vector takes all"), out[..size as usize]);
            assert!(out[size as usize..].iter().all(|b| *b == 0xaa));
            format!("0 {} 0 {}", size, hex(&out[..size as usize]))
        }
        Err(e) if format!("{:?}", e).contains("BufferHasNotEnoughCapacity") => format!("12 {} 0 -", size),
        Err(e) => format!("{} 0 ? -", crate::words::refusal(&e)),
    })
}
