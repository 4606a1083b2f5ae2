//! Messages read by this crate against the wall: the same bytes refused by the same number.

use mulkefi::{Drawing, Kind, Mark, Message, Operation, Refusal, Wall, MESSAGE_SIZE};
use oracle::generate::{messages, random::Random};
use oracle::message as oracle_message;

/// A drawing with one curve, so that a message may also be applied or refused as an edit.
fn image() -> Vec<u8> {
    let mut drawing = Drawing::new();
    let (a, b) = (drawing.add_point(0.0, 0.0), drawing.add_point(4.0, 0.0));
    drawing.add_curve(Kind::Line { a, b });
    drawing.to_image()
}

/// The number by which a wall refuses bytes that are no message, or none where it is one to it.
fn refused_as_message(wall: &Wall, bytes: &[u8]) -> Option<Refusal> {
    let refusal = wall.clone().deliver(bytes).err()?;
    [Refusal::Length, Refusal::Version, Refusal::Operation].into_iter().find(|one| *one == refusal)
}

/// The mark that bytes bear where a message has one, whether they are a message or not.
fn mark_of(bytes: &[u8]) -> Mark {
    let mark = bytes.get(5..13).map(|mark| <[u8; 8]>::try_from(mark).expect("eight bytes"));
    mark.map_or(Mark::from(0), Mark::from)
}

/// Reader and wall agree about these bytes; the answer is the number they are refused by, or 0.
fn check(image: &[u8], bytes: &[u8]) -> u16 {
    let mark = mark_of(bytes);
    let wall = Wall::start(image, mark).expect("a good image");
    let read = Message::read(bytes);
    assert_eq!(read.err(), refused_as_message(&wall, bytes), "{bytes:02x?}");
    let fault = Message::inspect(bytes).err();
    assert_eq!(read.err(), fault.as_ref().map(|fault| fault.refusal));
    match read {
        Ok(message) => {
            assert_eq!((message.mark, &message.to_bytes()[..]), (mark, bytes));
            assert_eq!(Mark::of_message(bytes), Some(mark));
            0
        }
        Err(refusal) => {
            let field = fault.expect("it is refused").field;
            assert!(field.end <= bytes.len(), "{field:?} of {}", bytes.len());
            refusal.number()
        }
    }
}

fn example() -> [u8; MESSAGE_SIZE] {
    let mark = Mark::from(0x0102_0304_0506_0708);
    let message =
        Message { mark, number: 1, operation: Operation::Split, curve: 3, x: 1.0, y: 0.0 };
    message.to_bytes()
}

/// Every byte takes every value; sizes run from 0 to twice a message's, with every version.
#[test]
fn each_byte_and_each_size() {
    let (image, whole) = (image(), example());
    assert_eq!(check(&image, &whole), 0);
    for at in 0..MESSAGE_SIZE {
        let mut numbers = [0usize; 29];
        for value in 0..=u8::MAX {
            let mut bytes = whole;
            bytes[at] = value;
            numbers[usize::from(check(&image, &bytes))] += 1;
        }
        let expected = match at {
            0..4 => (1, 255),
            4 => (2, 255),
            17 => (6, 253),
            16 => (6, 1),
            _ => (6, 0),
        };
        assert_eq!((numbers[expected.0], numbers[0]), (expected.1, 256 - expected.1), "byte {at}");
    }
    for size in 0..=2 * MESSAGE_SIZE {
        for version in 0..=u8::MAX {
            let mut bytes: Vec<u8> = whole.into_iter().cycle().take(size).collect();
            if let Some(byte) = bytes.get_mut(4) {
                *byte = version;
            }
            let expected = match (size, version) {
                (0..=4, _) => 1,
                (_, 2) if size == MESSAGE_SIZE => 0,
                (_, 2) => 1,
                _ => 2,
            };
            assert_eq!(check(&image, &bytes), expected, "{size} bytes, version {version}");
        }
    }
}

#[test]
fn generated_and_damaged_messages() {
    let (image, mut random) = (image(), Random::new(11));
    let mut numbers = [0usize; 29];
    for _ in 0..40_000 {
        let (mark, bytes) = messages::delivery(&mut random);
        let number = check(&image, &bytes);
        let mark = if number == 0 { mark_of(&bytes).into() } else { mark };
        if let Ok(expected) = oracle_message::read(&bytes, mark) {
            let read = Message::read(&bytes).expect("the oracle reads it");
            assert_eq!(read.number, expected.number);
            assert_eq!(read.operation.code(), expected.edit.operation.code());
            assert_eq!(read.curve, expected.edit.curve);
            let picks = [(read.x, expected.edit.x), (read.y, expected.edit.y)];
            picks.into_iter().for_each(|(x, y)| assert_eq!(x.to_bits(), y.to_bits()));
        }
        numbers[usize::from(number)] += 1;
    }
    println!("accepted {}, by 1, 2 and 6: {:?}", numbers[0], [1, 2, 6].map(|n| numbers[n]));
    assert!([0, 1, 2, 6].into_iter().all(|number| numbers[number] > 500), "{numbers:?}");
}

/// A foreign wall refuses by the mark before it looks at number and operation.
#[test]
fn a_reader_has_no_mark() {
    let image = image();
    let mut bytes = example();
    bytes[13..18].fill(0);
    let mut foreign = Wall::start(&image, Mark::from(1)).expect("a good image");
    assert_eq!(foreign.deliver(&bytes), Err(Refusal::Foreign));
    assert_eq!(Message::read(&bytes), Err(Refusal::Operation));
}

#[test]
fn a_pick_keeps_its_bits() {
    for bits in [0, 1 << 63, f64::NAN.to_bits(), 0x7ff0_0000_0000_0001, u64::MAX, 1] {
        let mut bytes = example();
        bytes[22..30].copy_from_slice(&bits.to_be_bytes());
        bytes[30..38].copy_from_slice(&(bits ^ 2).to_be_bytes());
        let message = Message::read(&bytes).expect("the pick is any bits");
        assert_eq!((message.x.to_bits(), message.y.to_bits()), (bits, bits ^ 2));
        assert_eq!(message.to_bytes(), bytes);
        let edit = message.edit();
        assert_eq!((edit.x.to_bits(), edit.y.to_bits()), (bits, bits ^ 2));
    }
}

/// Where the rule is broken, and whether one field is to blame.
#[test]
fn faults_name_their_bytes() {
    let whole = example();
    let long = [&whole[..], &[7, 7]].concat();
    let spoilt = |at: usize, field: &[u8]| {
        let mut bytes = whole.to_vec();
        bytes[at..at + field.len()].copy_from_slice(field);
        bytes
    };
    let cases = [
        (vec![], "end of the bytes at 0: no version byte (no single byte is to blame)"),
        (spoilt(4, &[1]), "byte 4: version is not 2"),
        (
            whole[..30].to_vec(),
            "end of the bytes at 30: message is not whole: it has 38 bytes \
             (no single byte is to blame)",
        ),
        (long, "bytes 38 to 39: bytes behind the message's 38 (no single byte is to blame)"),
        (spoilt(0, &[0, 0, 0, 35]), "bytes 0 to 3: length is not 34"),
        (spoilt(13, &[0; 4]), "bytes 13 to 16: number is 0"),
        (spoilt(17, &[4]), "byte 17: operation is not from 1 to 3"),
        (spoilt(13, &[0; 5]), "bytes 13 to 16: number is 0"),
    ];
    for (bytes, sentence) in cases {
        let fault = Message::inspect(&bytes).expect_err(sentence);
        assert_eq!(fault.to_string(), sentence);
    }
}
