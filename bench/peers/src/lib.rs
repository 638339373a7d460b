// The peers in Rust, as C functions that answer as the proved ones do: the Rust crate protobuf by its public calls, its generated code, its dynamic messages; prost;
// and Rust's own UTF-8 check. `generated.rs` is what protobuf-codegen 3.7.2 makes of ../bench.proto.
#[cfg(feature = "fields")]
mod fields;
#[cfg(feature = "objects")]
mod generated;
#[cfg(feature = "leaves")]
mod leaves;
#[cfg(feature = "objects")]
mod objects;
#[cfg(feature = "pulls")]
mod pulls;
#[cfg(any(feature = "records", feature = "dropped"))]
mod records;
#[cfg(feature = "segments")]
mod segments;
