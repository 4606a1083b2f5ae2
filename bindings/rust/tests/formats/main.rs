//! `docs/FORMATS.md` against the code: its sizes, places, kinds and limits, its orders of refusals, its example
//! and its pictures.

mod calls;
mod cells;
mod curves;
mod document;
mod edits;
mod example;
mod image_order;
mod layouts;
mod limits;
mod orders;
#[path = "../../examples/formats_pictures/pictures.rs"]
mod pictures;
mod prose;
mod relations;
mod shown;
mod sources;
mod statements;
