//! The reader against the engine: the number, the record to blame, and the field in it.

use mulkefi::{read, test, Fault, Refusal, Table};
use oracle::generate::fields::{self, Field, Tables};
use oracle::generate::{bridges, damage, image_bytes, random::Random};
use oracle::image::{self, HEADER_SIZE};

/// The tables of an image, each record by itself.
fn records(bytes: &[u8]) -> [Vec<Vec<u8>>; 3] {
    let tables = Tables::of(bytes).expect("the counts fit");
    [0, 1, 2].map(|table| {
        let place = |place| tables.record(table, place)..tables.record(table, place + 1);
        (0..tables.counts[table]).map(|at| bytes[place(at)].to_vec()).collect()
    })
}

/// An image of these records with the header's next id.
fn image_of(header: &[u8], records: &[Vec<Vec<u8>>; 3]) -> Vec<u8> {
    let body: Vec<u8> = records.iter().flatten().flatten().copied().collect();
    let mut bytes = header[..HEADER_SIZE].to_vec();
    bytes[..4].copy_from_slice(&((HEADER_SIZE + body.len() - 4) as u32).to_be_bytes());
    for (at, table) in Tables::COUNT_PLACES.into_iter().zip(records) {
        bytes[at..at + 2].copy_from_slice(&(table.len() as u16).to_be_bytes());
    }
    bytes.extend(body);
    bytes
}

/// The image up to a record, without it or with it.
fn up_to(bytes: &[u8], (table, place): (Table, usize), with: bool) -> Vec<u8> {
    let mut records = records(bytes);
    records[table as usize].truncate(place + usize::from(with));
    records[table as usize + 1..].iter_mut().for_each(Vec::clear);
    image_of(bytes, &records)
}

/// The record to blame is the first: without it and what follows, the rest is an image.
fn check_record(bytes: &[u8], fault: &Fault) {
    let Some(record) = fault.record else { return };
    assert_eq!(test(&up_to(bytes, record, false)), Ok(()), "{fault}");
    assert_eq!(test(&up_to(bytes, record, true)), Err(fault.refusal), "{fault}");
}

/// A value can be mended by itself: the image is then good up to this record, or its next fault is
/// another one.
fn check_field(bytes: &[u8], fault: &Fault) {
    if fault.refusal != Refusal::Value {
        return;
    }
    assert!(fault.alone, "{fault}");
    let bytes = fault.record.map_or(bytes.to_vec(), |record| up_to(bytes, record, true));
    let (at, width) = (fault.field.start, fault.field.len());
    let tried = [0, 1, 2, 3, 4, 5, 1.0f64.to_bits(), 0.5f64.to_bits()];
    let mended = tried.into_iter().any(|value| {
        let mut other = bytes.clone();
        fields::set(&mut other, &Field { at, width, role: fields::Role::Float }, value);
        read(&other).err().is_none_or(|next| {
            next.refusal != fault.refusal || next.field.start > fault.field.start
        })
    });
    assert!(mended, "{fault}");
}

#[test]
fn reader_and_engine_agree_on_generated_images() {
    let mut random = Random::new(5);
    let (mut numbers, mut blamed) = ([0usize; 6], 0usize);
    for _ in 0..20_000 {
        let bytes = image_bytes(&mut random);
        let outcome = read(&bytes);
        let refused = outcome.as_ref().err().map(|fault| fault.refusal);
        assert_eq!(test(&bytes).err(), refused, "{bytes:02x?}");
        let expected = image::read(&bytes).err().map(|refusal| u16::from(refusal.number()));
        assert_eq!(refused.map(Refusal::number), expected);
        numbers[usize::from(expected.unwrap_or(0))] += 1;
        match outcome {
            Ok(drawing) => assert_eq!(drawing.to_image(), bytes, "written again, the same bytes"),
            Err(fault) => {
                assert!(fault.field.end <= bytes.len().max(fault.field.start));
                check_record(&bytes, &fault);
                check_field(&bytes, &fault);
                blamed += usize::from(fault.record.is_some());
            }
        }
    }
    println!("accepted and by number {numbers:?}, in a record {blamed}");
    assert!(numbers.iter().all(|count| *count > 100), "{numbers:?}");
}

/// A float or flag of a good image, spoilt, is itself blamed.
#[test]
fn a_spoilt_value_is_found() {
    let mut random = Random::new(6);
    let mut found = 0;
    for _ in 0..4_000 {
        let mut bytes = image::to_bytes(&bridges::any_drawing(&mut random));
        let tables = Tables::of(&bytes).expect("a good image");
        let field = fields::any_field(&mut random, &tables);
        let spoilt = match field.role {
            fields::Role::Float => f64::NAN.to_bits(),
            fields::Role::Flags => 0x80,
            _ => continue,
        };
        fields::set(&mut bytes, &field, spoilt);
        let fault = read(&bytes).expect_err("the value is spoilt");
        assert_eq!((fault.refusal, fault.alone), (Refusal::Value, true));
        assert_eq!(fault.field, field.at..field.at + field.width);
        found += 1;
    }
    assert!(found > 500, "{found}");
}

#[test]
fn bytes_behind_the_record_do_not_matter() {
    let mut random = Random::new(7);
    for _ in 0..3_000 {
        let mut bytes = image::to_bytes(&bridges::any_drawing(&mut random));
        damage::damage(&mut random, &mut bytes);
        let Err(fault) = read(&bytes) else { continue };
        let Some((table, place)) = fault.record else { continue };
        let tables = Tables::of(&bytes).expect("the counts fit");
        let end = tables.record(table as usize, place + 1);
        bytes[end..].iter_mut().for_each(|byte| *byte = random.bits() as u8);
        assert_eq!(test(&bytes), Err(fault.refusal));
        assert_eq!(read(&bytes), Err(fault));
    }
}
