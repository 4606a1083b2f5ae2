//! An image in words or as a picture.

use crate::failure::Failure;
use crate::options::Options;
use mulkefi::svg::Sheet;
use mulkefi::{read, test, Drawing, Refusal};

/// The engine accepts or refuses the image; the reader finds the byte at fault.
pub fn show(options: &Options, bytes: &[u8]) -> Result<String, Failure> {
    match (test(bytes), read(bytes)) {
        (Ok(()), Ok(drawing)) => text(options, bytes, &drawing).map_err(Failure::Wrong),
        (engine, reader) => Err(Failure::of_bytes(engine.err(), reader.err())),
    }
}

/// The drawing as text or picture, or why the relation that is asked for is not in it.
fn text(options: &Options, bytes: &[u8], drawing: &Drawing) -> Result<String, String> {
    let find = |place| drawing.relation(place).ok_or_else(|| missing(drawing, place));
    let relation = options.relation.map(find).transpose()?;
    if options.svg {
        return Ok(match relation {
            relation if options.ids => Sheet::with_ids(drawing, relation),
            Some(relation) => Sheet::with_relation(drawing, relation),
            None => Sheet::of(drawing),
        });
    }
    let head = format!("image of {} bytes, version {}", bytes.len(), bytes[4]);
    Ok(match options.relation {
        Some(place) => format!("{head}\n{}", drawing.highlighted(place)),
        None => format!("{head}\n{drawing}"),
    })
}

fn missing(drawing: &Drawing, place: usize) -> String {
    let count = drawing.relations.len();
    let pin = match (Refusal::Conflict { place }).relation(drawing) {
        Some(unmet) => format!("; with 19 that is the place of {unmet}"),
        None => String::new(),
    };
    format!("no relation is at place {place}, of {count} from 0{pin}")
}
