//! Case lines answered through the public calls of the crate protobuf, as generated code would use them.
//! A word that the crate cannot say is `?`; a line that it cannot answer is `left out: REASON`.
pub mod calls;
pub mod pulling;
pub mod reading;
pub mod scalars;
pub mod segments;
pub mod words;
pub mod writing;

use words::{Line, Parsed};

/// The answer to one case line.
pub fn answer(text: &str) -> String {
    let line = Line::new(text);
    match by_verb(&line) {
        Some(answer) => answer,
        None => "left out: bad line".to_string(),
    }
}

fn by_verb(line: &Line) -> Parsed<String> {
    match line.verb() {
        "read" => reading::read(line, false),
        "readdropped" => reading::read(line, true),
        "records" => reading::records(line),
        "size" => writing::size(line),
        "write" => writing::write(line),
        "pull" => pulling::pull(line),
        "segread" => segments::read(line),
        "segwrite" => segments::write(line),
        "document" | "schema" | "lookup" => Some("left out: the crate has no such call".to_string()),
        _ => calls::call(line),
    }
}
