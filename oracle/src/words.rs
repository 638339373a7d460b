//! The words of a case line, and the crate's errors as refusal numbers.
use protobuf::CodedInputStream;

/// What a word says; none where it is no such word.
pub type Parsed<T> = Option<T>;

pub struct Line<'a>(Vec<&'a str>);

impl<'a> Line<'a> {
    pub fn new(text: &'a str) -> Line<'a> {
        Line(text.split(' ').collect())
    }
    pub fn verb(&self) -> &'a str {
        self.0[0]
    }
    /// So many words after the verb, no more and no fewer.
    pub fn words(&self, count: usize) -> Parsed<&[&'a str]> {
        if self.0.len() == count + 1 {
            Some(&self.0[1..])
        } else {
            None
        }
    }
}

pub fn number<T: std::str::FromStr>(word: &str) -> Parsed<T> {
    if word.bytes().all(|b| b.is_ascii_digit()) {
        word.parse().ok()
    } else {
        None
    }
}

pub fn numbers<T: std::str::FromStr>(word: &str, by: char) -> Parsed<Vec<T>> {
    if word == "-" {
        Some(Vec::new())
    } else {
        word.split(by).map(number).collect()
    }
}

pub fn bytes(word: &str) -> Parsed<Vec<u8>> {
    if word == "-" {
        return Some(Vec::new());
    }
    let digit = |b: u8| match b {
        b'0'..=b'9' => Some(b - b'0'),
        b'a'..=b'f' => Some(b - b'a' + 10),
        _ => None,
    };
    if word.is_empty() || word.len() % 2 != 0 {
        return None;
    }
    word.as_bytes().chunks(2).map(|p| Some(digit(p[0])? * 16 + digit(p[1])?)).collect()
}

pub fn hex(bytes: &[u8]) -> String {
    if bytes.is_empty() {
        return "-".to_string();
    }
    bytes.iter().map(|b| format!("{:02x}", b)).collect()
}

#[derive(Clone, Copy)]
pub struct Entry {
    pub owner: u32,
    pub number: u32,
    pub kind: u32,
    pub repeated: bool,
    pub child: u32,
}

pub fn schema(word: &str) -> Parsed<Vec<Entry>> {
    let (types, rest) = word.split_once('|')?;
    number::<u32>(types)?;
    if rest == "-" {
        return Some(Vec::new());
    }
    let entry = |text: &str| {
        let n: Vec<u32> = numbers(text, ',')?;
        let [owner, number, kind, repeated, child] = n[..] else { return None };
        Some(Entry { owner, number, kind, repeated: repeated != 0, child })
    };
    rest.split(';').map(entry).collect()
}

#[derive(Clone, PartialEq, Debug)]
pub struct Record {
    pub depth: u64,
    pub number: u64,
    pub kind: u64,
    pub value: u64,
    pub start: u64,
    pub end: u64,
    /// place of the first byte of the field's tag
    pub tag: u64,
}

pub fn records(word: &str) -> Parsed<Vec<Record>> {
    if word == "-" {
        return Some(Vec::new());
    }
    let record = |text: &str| {
        let n: Vec<u64> = numbers(text, ',')?;
        let [depth, number, kind, value, start, end, tag] = n[..] else { return None };
        Some(Record { depth, number, kind, value, start, end, tag })
    };
    word.split(';').map(record).collect()
}

pub fn show(records: &[Record], by: char, between: &str) -> String {
    let one = |r: &Record| {
        let n = [r.depth, r.number, r.kind, r.value, r.start, r.end, r.tag];
        n.map(|v| v.to_string()).join(&by.to_string())
    };
    records.iter().map(one).collect::<Vec<_>>().join(between)
}

/// The refusal number of the crate's error; 0 where the rules have none. The error's kind is public only in how it prints itself.
pub fn refusal(error: &protobuf::Error) -> u32 {
    let text = format!("{:?}", error);
    let names: [(&str, u32); 11] = [
        ("UnexpectedEof", 1),
        ("TruncatedMessage", 1),
        ("LimitIncrease", 1),
        ("LimitOverflow", 1),
        ("IncorrectVarint", 2),
        ("IncorrectTag", 3),
        ("UnexpectedWireType(EndGroup)", 4),
        ("I32Overflow", 5),
        ("Utf8Error", 6),
        ("OverRecursionLimit", 7),
        ("MessageTooLarge", 11),
    ];
    names.iter().find(|(name, _)| text.contains(name)).map_or(0, |(_, no)| *no)
}

/// A stream over the bytes; limited, it has their length as a limit, so that no length may pass it. Its levels end so many below 100.
pub fn stream(bytes: &[u8], limited: bool, level: u64) -> CodedInputStream<'_> {
    let mut is = CodedInputStream::from_bytes(bytes);
    if limited {
        is.push_limit(bytes.len() as u64).expect("a first limit");
    }
    is.set_recursion_limit(100u64.saturating_sub(level) as u32);
    is
}

/// The answer of a limited stream, followed by that of a bare one where it differs. `past` says that the bare one let
/// a message's or packed field's length run past the slice, where its answer is another by rule.
pub fn both(limited: String, bare: String, past: bool) -> String {
    if past {
        return limited + "\tpast";
    }
    if limited == bare {
        limited
    } else {
        format!("{} BARE {}", limited, bare)
    }
}
