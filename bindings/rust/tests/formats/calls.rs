//! The orders in which desk, wall, catch-up and search for roots refuse.

use crate::orders::{check, Given, Rule};
use mulkefi::{raw, Desk, Drawing, Edit, Kind, Mark, Operation, MESSAGE_SIZE, WINDOW_SIZE};

const MARK: u64 = 7;

fn drawing() -> Drawing {
    let mut drawing = Drawing::new();
    let (a, b) = (drawing.add_point(0.0, 0.0), drawing.add_point(4.0, 0.0));
    drawing.add_curve(Kind::Line { a, b });
    drawing
}

const LINE: u32 = 3;

/// A call at the desk or a delivery at the wall, with the memory that is lent to it.
#[derive(Clone)]
struct Call {
    image: Vec<u8>,
    room: usize,
    count: u32,
    operation: u32,
    curve: u32,
    message: Vec<u8>,
}

impl Call {
    fn good() -> Call {
        let image = drawing().to_image();
        let mut desk = Desk::start(&image, Mark::from(MARK)).expect("a good image");
        let split = Edit { operation: Operation::Split, curve: LINE, x: 1.0, y: 0.0 };
        let message = desk.edit(&split).expect("the split is accepted").message.to_vec();
        let room = desk.image().len();
        Call { image, room, count: 0, operation: 2, curve: LINE, message }
    }

    fn buffer(&self) -> Vec<u8> {
        let mut buffer = self.image.clone();
        buffer.resize(self.room.max(self.image.len()), 0);
        buffer
    }

    fn at_desk(&self) -> Given {
        let mut buffer = self.buffer();
        let (mut message, mut window, mut answer) =
            (self.message.clone(), [0; WINDOW_SIZE], [0; 5]);
        // SAFETY: the four buffers are apart and lent with their own lengths.
        Given::of(unsafe {
            raw::mulkefi_desk_edit(
                buffer.as_mut_ptr(),
                buffer.len(),
                self.image.len(),
                self.count,
                MARK,
                self.operation,
                self.curve,
                1.0,
                0.0,
                message.as_mut_ptr(),
                message.len(),
                window.as_mut_ptr(),
                answer.as_mut_ptr(),
            )
        })
    }

    fn at_wall(&self) -> Given {
        let (mut buffer, mut answer) = (self.buffer(), [0; 5]);
        // SAFETY: the three buffers are apart and lent with their own lengths.
        let given = Given::of(unsafe {
            raw::mulkefi_wall_deliver(
                buffer.as_mut_ptr(),
                buffer.len(),
                self.image.len(),
                self.count,
                MARK,
                self.message.as_ptr(),
                self.message.len(),
                answer.as_mut_ptr(),
            )
        });
        if given == Given::Accepted && answer[0] == self.count {
            Given::Old
        } else {
            given
        }
    }

    fn set_number(&mut self, number: u32) {
        if let Some(field) = self.message.get_mut(13..17) {
            field.copy_from_slice(&number.to_be_bytes());
        }
    }
}

#[test]
fn a_message_is_refused_by_the_first_rule_that_it_breaks() {
    let rules: [Rule<Call>; 10] = [
        ("image", |call| call.image[8] = 0),
        ("short", |call| call.message.truncate(4)),
        ("version", |call| call.message[4] = 1),
        ("length", |call| call.message[3] = 33),
        ("mark", |call| call.message[12] ^= 1),
        ("operation", |call| call.message[17] = 4),
        ("old", |call| call.count = 1),
        ("ahead", |call| call.set_number(2)),
        ("edit", |call| call.message[21] = 99),
        ("room", |call| call.room = 0),
    ];
    let apart = [("old", "ahead")];
    check("Of a message, at the wall", &Call::good(), &rules, &apart, Call::at_wall);
}

#[test]
fn a_message_with_number_0_is_refused_and_never_old() {
    let mut call = Call::good();
    call.set_number(0);
    for count in [0, 1, u32::MAX] {
        call.count = count;
        assert_eq!(call.at_wall(), Given::Number(6));
    }
}

#[test]
fn a_message_of_another_size_is_refused() {
    let message = Call::good().message;
    for size in (5..MESSAGE_SIZE).chain([MESSAGE_SIZE + 1, 2 * MESSAGE_SIZE]) {
        let mut call = Call::good();
        call.message = message.iter().copied().cycle().take(size).collect();
        call.message[..4].copy_from_slice(&(size as u32 - 4).to_be_bytes());
        assert_eq!(call.at_wall(), Given::Number(1), "{size}");
    }
}

#[test]
fn the_desk_refuses_by_the_first_rule_that_is_broken() {
    let rules: [Rule<Call>; 6] = [
        ("image", |call| call.image[8] = 0),
        ("operation", |call| call.operation = 4),
        ("message room", |call| call.message.truncate(37)),
        ("count", |call| call.count = u32::MAX),
        ("edit", |call| call.curve = 99),
        ("room", |call| call.room = 0),
    ];
    check("Of a call at the desk", &Call::good(), &rules, &[], Call::at_desk);
}

/// What is asked of a desk's window.
#[derive(Clone)]
struct CatchUp {
    window: [u8; WINDOW_SIZE],
    count: u32,
    wall_count: u32,
    room: usize,
}

impl CatchUp {
    /// A desk that has split a line so many times, and a wall that has applied none.
    fn after(splits: u32) -> CatchUp {
        let mut desk = Desk::start(&drawing().to_image(), Mark::from(MARK)).expect("a good image");
        for split in 1..=splits {
            let x = 4.0 - 4.0 * f64::from(split) / f64::from(splits + 1);
            let edit = Edit { operation: Operation::Split, curve: LINE, x, y: 0.0 };
            desk.edit(&edit).expect("the split is accepted");
        }
        CatchUp { window: *desk.window(), count: splits, wall_count: 0, room: WINDOW_SIZE }
    }

    fn given(&self) -> Given {
        let mut messages = vec![0; self.room];
        // SAFETY: the two buffers are apart and lent with their own lengths.
        Given::of(unsafe {
            raw::mulkefi_catch_up(
                self.window.as_ptr(),
                self.count,
                MARK,
                self.wall_count,
                messages.as_mut_ptr(),
                messages.len(),
            )
        })
    }
}

#[test]
fn a_catch_up_is_refused_by_the_first_rule_that_is_broken() {
    let rules: [Rule<CatchUp>; 3] = [
        ("count", |asked| asked.wall_count = asked.count + 1),
        ("window", |asked| asked.window.fill(0)),
        ("room", |asked| asked.room = 37),
    ];
    check("Of a catch-up", &CatchUp::after(2), &rules, &[], CatchUp::given);
}

#[test]
fn a_window_holds_so_many_messages_and_no_more() {
    assert_eq!(CatchUp::after(64).given(), Given::Accepted);
    assert_eq!(CatchUp::after(65).given(), Given::Number(26));
}

/// A search for roots as it is asked for.
#[derive(Clone)]
struct Search {
    coefficients: Vec<f64>,
    room: usize,
    budget: usize,
}

impl Search {
    fn given(&self) -> Given {
        let (mut found, mut answer) = (vec![0.0; self.room], [0; 2]);
        // SAFETY: the three buffers are apart and lent with their own lengths.
        Given::of(unsafe {
            raw::mulkefi_roots(
                self.coefficients.as_ptr(),
                self.coefficients.len(),
                found.as_mut_ptr(),
                found.len(),
                self.budget,
                answer.as_mut_ptr(),
            )
        })
    }
}

#[test]
fn a_search_for_roots_is_refused_by_the_first_rule_that_is_broken() {
    let rules: [Rule<Search>; 3] = [
        ("room", |asked| asked.room = 27),
        ("coefficients", |asked| asked.coefficients = vec![1.0, f64::MAX, -f64::MAX]),
        ("budget", |asked| asked.budget = 46),
    ];
    let good = Search { coefficients: vec![-1.0, 1.0], room: 28, budget: 47 };
    check("Of a search for roots", &good, &rules, &[], Search::given);
    for coefficients in [vec![], vec![1.0; 16], vec![1.0, f64::NAN], vec![f64::INFINITY]] {
        let asked = Search { coefficients, ..good.clone() };
        assert_eq!(asked.given(), Given::Number(20));
    }
}
