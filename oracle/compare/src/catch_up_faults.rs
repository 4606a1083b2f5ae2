//! Faults in what a wall that fell behind is sent, planted into one side of the comparison of catch-ups.

use crate::catch_ups::{CatchUps, Engine, Implementation, Oracle};
use crate::subject;
use oracle::bytes::{put, u32_at, u64_at};
use oracle::generate::windows::Asked;
use oracle::message::{self, *};
use oracle::recording::{self, CatchUpEntry, List, MOST_ROOM, SEED};
use oracle::refusal::{number_of, Refusal};
use oracle::window::{self, MESSAGES};
use std::marker::PhantomData;

/// A catch-up in parts; each fault does one of them otherwise than the oracle.
trait CatchUpFault {
    /// In which slot the message with a number stands.
    fn place(number: u32, _window: &[u8]) -> usize {
        number as usize % MESSAGES
    }

    /// Whether a slot holds the message with a number.
    fn holds(slot: &[u8], mark: Mark, number: u32) -> bool {
        message::read(slot, mark).is_ok_and(|message| message.number == number)
    }

    fn slot(window: &[u8], number: u32) -> Option<&[u8]> {
        window.chunks_exact(SIZE).nth(Self::place(number, window))
    }

    fn is_held(window: &[u8], mark: Mark, number: u32) -> bool {
        Self::slot(window, number).is_some_and(|slot| Self::holds(slot, mark, number))
    }

    fn has_left(window: &[u8], asked: Asked) -> bool {
        is_too_far_back(asked)
            || !numbers(asked).all(|number| Self::is_held(window, asked.mark, number))
    }

    /// The tests in their order.
    fn test(window: &[u8], asked: Asked, room: usize) -> Result<(), Refusal> {
        refuse_if(asked.wall_count > asked.count, Refusal::CountAbove)?;
        refuse_if(Self::has_left(window, asked), Refusal::LeftWindow)?;
        refuse_if(room < size(asked), Refusal::Buffer)
    }

    /// What is written where nothing is refused.
    fn due(window: &[u8], asked: Asked) -> Vec<u8> {
        slots::<Self>(window, numbers(asked))
    }

    fn catch_up(window: &[u8], asked: Asked, out: &mut [u8]) -> Result<(), Refusal> {
        Self::test(window, asked, out.len())?;
        put_in_front(&Self::due(window, asked), out);
        Ok(())
    }
}

fn is_too_far_back(asked: Asked) -> bool {
    asked.due() as usize > MESSAGES
}

/// The numbers of the messages due.
fn numbers(Asked { count, wall_count, .. }: Asked) -> impl DoubleEndedIterator<Item = u32> {
    (wall_count..count).map(|before| before + 1)
}

/// The size of the messages due.
fn size(asked: Asked) -> usize {
    asked.due() as usize * SIZE
}

/// The slots of some numbers, one after the other.
fn slots<F: CatchUpFault + ?Sized>(window: &[u8], numbers: impl Iterator<Item = u32>) -> Vec<u8> {
    numbers.filter_map(|number| F::slot(window, number)).flatten().copied().collect()
}

fn refuse_if(is_refused: bool, refusal: Refusal) -> Result<(), Refusal> {
    if is_refused {
        Err(refusal)
    } else {
        Ok(())
    }
}

/// As many of the bytes as fit.
fn put_in_front(bytes: &[u8], out: &mut [u8]) {
    let size = bytes.len().min(out.len());
    out[..size].copy_from_slice(&bytes[..size]);
}

struct NoFault;

impl CatchUpFault for NoFault {}

/// A window has 63 slots.
struct SixtyThreeSlots;

impl CatchUpFault for SixtyThreeSlots {
    fn place(number: u32, _: &[u8]) -> usize {
        number as usize % 63
    }
}

/// A window has as many slots as its bytes have room for.
struct SlotsBySize;

impl CatchUpFault for SlotsBySize {
    fn place(number: u32, window: &[u8]) -> usize {
        number as usize % (window.len() / SIZE).max(1)
    }
}

/// 65 messages are sent, which 64 slots can't hold.
struct SixtyFiveSent;

impl CatchUpFault for SixtyFiveSent {
    fn has_left(window: &[u8], asked: Asked) -> bool {
        let last = |numbers: u32| Asked { wall_count: asked.count - numbers, ..asked };
        match asked.due() {
            65 => NoFault::has_left(window, last(64)),
            _ => NoFault::has_left(window, asked),
        }
    }
}

/// 64 messages are not sent.
struct SixtyFourRefused;

impl CatchUpFault for SixtyFourRefused {
    fn has_left(window: &[u8], asked: Asked) -> bool {
        asked.due() as usize >= MESSAGES || NoFault::has_left(window, asked)
    }
}

/// Slots are not looked at.
struct SlotsTrusted;

impl CatchUpFault for SlotsTrusted {
    fn has_left(_: &[u8], asked: Asked) -> bool {
        is_too_far_back(asked)
    }
}

/// The slot of the first message due is looked at alone.
struct FirstAlone;

impl CatchUpFault for FirstAlone {
    fn has_left(window: &[u8], asked: Asked) -> bool {
        let first = numbers(asked).next();
        is_too_far_back(asked)
            || first.is_some_and(|number| !Self::is_held(window, asked.mark, number))
    }
}

/// The slot of the last message due is looked at alone.
struct LastAlone;

impl CatchUpFault for LastAlone {
    fn has_left(window: &[u8], asked: Asked) -> bool {
        let last = numbers(asked).next_back();
        is_too_far_back(asked)
            || last.is_some_and(|number| !Self::is_held(window, asked.mark, number))
    }
}

/// The slots of the first and the last message due are looked at alone.
struct EndsAlone;

impl CatchUpFault for EndsAlone {
    fn has_left(window: &[u8], asked: Asked) -> bool {
        FirstAlone::has_left(window, asked) || LastAlone::has_left(window, asked)
    }
}

/// The slot of the last message due is not looked at.
struct AllButLast;

impl CatchUpFault for AllButLast {
    fn has_left(window: &[u8], asked: Asked) -> bool {
        let before_last = asked.due().saturating_sub(1) as usize;
        let mut others = numbers(asked).take(before_last);
        is_too_far_back(asked) || others.any(|number| !Self::is_held(window, asked.mark, number))
    }
}

/// The desk's last message has to be held even where none is due.
struct LastAskedOfAll;

impl CatchUpFault for LastAskedOfAll {
    fn has_left(window: &[u8], asked: Asked) -> bool {
        NoFault::has_left(window, asked) || !Self::is_held(window, asked.mark, asked.count)
    }
}

/// The number after the wall's is formed before it is known that there is one: after the last comes 0.
struct NumberAfterLast;

impl CatchUpFault for NumberAfterLast {
    fn has_left(window: &[u8], asked: Asked) -> bool {
        let next = asked.wall_count.wrapping_add(1);
        let is_due = next <= asked.count;
        NoFault::has_left(window, asked) || is_due && !Self::is_held(window, asked.mark, next)
    }
}

/// What is sent begins with the message of the wall's own count.
struct FromWallsOwn;

impl CatchUpFault for FromWallsOwn {
    fn due(window: &[u8], asked: Asked) -> Vec<u8> {
        slots::<Self>(window, asked.wall_count..asked.count)
    }
}

/// What is sent begins with the message of the wall's own count, and ends with the desk's last.
struct OneTooMany;

impl CatchUpFault for OneTooMany {
    fn due(window: &[u8], asked: Asked) -> Vec<u8> {
        slots::<Self>(window, asked.wall_count..=asked.count)
    }
}

/// What is sent begins with the second message after the wall's count.
struct FromSecond;

impl CatchUpFault for FromSecond {
    fn due(window: &[u8], asked: Asked) -> Vec<u8> {
        slots::<Self>(window, numbers(asked).skip(1))
    }
}

/// The last message comes first.
struct Falling;

impl CatchUpFault for Falling {
    fn due(window: &[u8], asked: Asked) -> Vec<u8> {
        slots::<Self>(window, numbers(asked).rev())
    }
}

/// Behind slot 63 nothing more is found.
struct TurnMissed;

impl CatchUpFault for TurnMissed {
    fn due(window: &[u8], asked: Asked) -> Vec<u8> {
        let first = numbers(asked).next().map_or(0, window::slot_at);
        window[first..].iter().take(size(asked)).copied().collect()
    }
}

/// A message is written anew from what was read, where all NaNs are one.
struct WrittenAnew;

impl CatchUpFault for WrittenAnew {
    fn due(window: &[u8], asked: Asked) -> Vec<u8> {
        let mut due = NoFault::due(window, asked);
        for message in due.chunks_mut(SIZE) {
            for at in [X_AT, Y_AT] {
                if f64::from_bits(u64_at(message, at)).is_nan() {
                    put(message, at, f64::NAN.to_bits().to_be_bytes());
                }
            }
        }
        due
    }
}

/// 25 comes before 26.
struct RoomBeforeWindow;

impl CatchUpFault for RoomBeforeWindow {
    fn test(window: &[u8], asked: Asked, room: usize) -> Result<(), Refusal> {
        refuse_if(asked.wall_count > asked.count, Refusal::CountAbove)?;
        refuse_if(room < size(asked), Refusal::Buffer)?;
        refuse_if(Self::has_left(window, asked), Refusal::LeftWindow)
    }
}

/// 25 comes before 27, for as many messages as lie between the counts, whichever is above.
struct RoomBeforeCount;

impl CatchUpFault for RoomBeforeCount {
    fn test(window: &[u8], asked: Asked, room: usize) -> Result<(), Refusal> {
        let above = asked.wall_count.saturating_sub(asked.count) as usize;
        refuse_if(room < above * SIZE, Refusal::Buffer)?;
        NoFault::test(window, asked, room)
    }
}

/// 26 comes before 27, since nothing that is above the desk's count is held.
struct WindowBeforeCount;

impl CatchUpFault for WindowBeforeCount {
    fn test(window: &[u8], asked: Asked, room: usize) -> Result<(), Refusal> {
        refuse_if(asked.wall_count > asked.count, Refusal::LeftWindow)?;
        NoFault::test(window, asked, room)
    }
}

/// Room is asked for all messages that a window holds.
struct RoomForAll;

impl CatchUpFault for RoomForAll {
    fn test(window: &[u8], asked: Asked, room: usize) -> Result<(), Refusal> {
        NoFault::test(window, asked, room)?;
        refuse_if(room < window::SIZE, Refusal::Buffer)
    }
}

/// Room is asked for a message even where none is due.
struct RoomForNone;

impl CatchUpFault for RoomForNone {
    fn test(window: &[u8], asked: Asked, room: usize) -> Result<(), Refusal> {
        NoFault::test(window, asked, room)?;
        refuse_if(room < SIZE, Refusal::Buffer)
    }
}

/// Where there is too little room, as many messages as fit are sent.
struct AsManyAsFit;

impl CatchUpFault for AsManyAsFit {
    fn catch_up(window: &[u8], asked: Asked, out: &mut [u8]) -> Result<(), Refusal> {
        let tested = Self::test(window, asked, out.len());
        if tested == Err(Refusal::Buffer) {
            let fit = out.len() / SIZE * SIZE;
            put_in_front(&Self::due(window, asked)[..fit], out);
            return Ok(());
        }
        NoFault::catch_up(window, asked, out)
    }
}

/// As many bytes as fit are written before the room is tested.
struct WrittenBeforeRoom;

impl CatchUpFault for WrittenBeforeRoom {
    fn catch_up(window: &[u8], asked: Asked, out: &mut [u8]) -> Result<(), Refusal> {
        let tested = Self::test(window, asked, out.len());
        if tested == Err(Refusal::Buffer) {
            put_in_front(&Self::due(window, asked), out);
        }
        NoFault::catch_up(window, asked, out)
    }
}

/// Each message is written before the next one's slot is looked at.
struct WrittenBeforeWindow;

impl CatchUpFault for WrittenBeforeWindow {
    fn catch_up(window: &[u8], asked: Asked, out: &mut [u8]) -> Result<(), Refusal> {
        if Self::test(window, asked, out.len()) == Err(Refusal::LeftWindow) {
            let is_held = |number: &u32| Self::is_held(window, asked.mark, *number);
            let held = numbers(asked).take(MESSAGES).take_while(is_held);
            put_in_front(&slots::<Self>(window, held), out);
        }
        NoFault::catch_up(window, asked, out)
    }
}

/// The rest of the buffer is filled with zeros.
struct RestCleared;

impl CatchUpFault for RestCleared {
    fn catch_up(window: &[u8], asked: Asked, out: &mut [u8]) -> Result<(), Refusal> {
        NoFault::catch_up(window, asked, out)?;
        out[size(asked)..].fill(0);
        Ok(())
    }
}

/// Where there is room, the slot after the desk's last message is written too.
struct SlotBehindWritten;

impl CatchUpFault for SlotBehindWritten {
    fn catch_up(window: &[u8], asked: Asked, out: &mut [u8]) -> Result<(), Refusal> {
        NoFault::catch_up(window, asked, out)?;
        if let Some(number) = asked.count.checked_add(1) {
            put_in_front(&slots::<Self>(window, [number].into_iter()), &mut out[size(asked)..]);
        }
        Ok(())
    }
}

/// A wall above its desk is answered 0.
struct AboveAccepted;

impl CatchUpFault for AboveAccepted {
    fn test(window: &[u8], asked: Asked, room: usize) -> Result<(), Refusal> {
        match NoFault::test(window, asked, room) {
            Err(Refusal::CountAbove) => Ok(()),
            tested => tested,
        }
    }
}

/// The number in a slot is not compared.
struct NumberNotCompared;

impl CatchUpFault for NumberNotCompared {
    fn holds(slot: &[u8], mark: Mark, _: u32) -> bool {
        message::read(slot, mark).is_ok()
    }
}

/// The last two bytes of the number alone are compared.
struct HalfOfNumber;

impl CatchUpFault for HalfOfNumber {
    fn holds(slot: &[u8], mark: Mark, number: u32) -> bool {
        message::read(slot, mark).is_ok_and(|message| message.number as u16 == number as u16)
    }
}

/// The mark in a slot is not compared.
struct MarkNotCompared;

impl CatchUpFault for MarkNotCompared {
    fn holds(slot: &[u8], _: Mark, number: u32) -> bool {
        NoFault::holds(slot, u64_at(slot, MARK_AT), number)
    }
}

/// The last four bytes of the mark alone are compared.
struct HalfOfMark;

impl CatchUpFault for HalfOfMark {
    fn holds(slot: &[u8], mark: Mark, number: u32) -> bool {
        let borne = u64_at(slot, MARK_AT);
        borne as u32 == mark as u32 && NoFault::holds(slot, borne, number)
    }
}

/// A slot is compared by its number alone.
struct NumberAlone;

impl CatchUpFault for NumberAlone {
    fn holds(slot: &[u8], _: Mark, number: u32) -> bool {
        u32_at(slot, NUMBER_AT) == number
    }
}

/// A slot is compared by mark and number, and not read as a message.
struct MarkAndNumberAlone;

impl CatchUpFault for MarkAndNumberAlone {
    fn holds(slot: &[u8], mark: Mark, number: u32) -> bool {
        u64_at(slot, MARK_AT) == mark && u32_at(slot, NUMBER_AT) == number
    }
}

/// Whether a slot would hold the message if one byte were another.
fn holds_with(slot: &[u8], at: usize, value: u8, mark: Mark, number: u32) -> bool {
    let mut slot = slot.to_vec();
    slot[at] = value;
    NoFault::holds(&slot, mark, number)
}

/// Any byte is an operation.
struct AnyOperation;

impl CatchUpFault for AnyOperation {
    fn holds(slot: &[u8], mark: Mark, number: u32) -> bool {
        holds_with(slot, OPERATION_AT, 1, mark, number)
    }
}

/// There is a fourth operation.
struct FourOperations;

impl CatchUpFault for FourOperations {
    fn holds(slot: &[u8], mark: Mark, number: u32) -> bool {
        let operation = slot[OPERATION_AT];
        let taken_for = if operation == 4 { 1 } else { operation };
        holds_with(slot, OPERATION_AT, taken_for, mark, number)
    }
}

/// Messages of version 1 are read as those of version 2.
struct EarlierVersion;

impl CatchUpFault for EarlierVersion {
    fn holds(slot: &[u8], mark: Mark, number: u32) -> bool {
        let version = slot[VERSION_AT];
        let taken_for = if version == 1 { VERSION } else { version };
        holds_with(slot, VERSION_AT, taken_for, mark, number)
    }
}

/// The length field may be lower than it has to be.
struct ShorterLength;

impl CatchUpFault for ShorterLength {
    fn holds(slot: &[u8], mark: Mark, number: u32) -> bool {
        let length = u32_at(slot, 0);
        let mut slot = slot.to_vec();
        put(&mut slot, 0, length.max(LENGTH).to_be_bytes());
        NoFault::holds(&slot, mark, number)
    }
}

/// What a window lacks is taken for zeros.
struct ZerosBehindEnd;

impl CatchUpFault for ZerosBehindEnd {
    fn catch_up(window: &[u8], asked: Asked, out: &mut [u8]) -> Result<(), Refusal> {
        let mut whole = window.to_vec();
        whole.resize(window::SIZE, 0);
        NoFault::catch_up(&whole, asked, out)
    }
}

/// From a window of another size nothing is sent.
struct WholeWindowsAlone;

impl CatchUpFault for WholeWindowsAlone {
    fn has_left(window: &[u8], asked: Asked) -> bool {
        let is_other = window.len() != window::SIZE && asked.due() > 0;
        is_other || NoFault::has_left(window, asked)
    }
}

/// One side of the comparison, with a fault.
struct Faulty<F>(PhantomData<F>);

impl<F: CatchUpFault> Implementation for Faulty<F> {
    fn catch_up(window: &[u8], asked: Asked, out: &mut [u8]) -> u32 {
        number_of(&F::catch_up(window, asked, out)).into()
    }
}

/// A fault of the sum alone: one call more is made.
struct OneCallMore;

impl Implementation for OneCallMore {
    fn catch_up(window: &[u8], asked: Asked, out: &mut [u8]) -> u32 {
        Oracle::catch_up(window, asked, out)
    }

    fn sum(window: &[u8], asked: Asked, times: u32) -> u32 {
        Oracle::sum(window, asked, times + 1)
    }
}

/// Within so many cases.
const ENOUGH: usize = 20_000;
/// What a buffer holds before a recorded call.
const PATTERN: u8 = 0xa5;

/// Whether an entry is answered otherwise than it is recorded, as the program `replay` has it.
fn differs<I: Implementation>((outcome, input): (u8, &[u8])) -> bool {
    let CatchUpEntry { asked, room, window, written } = CatchUpEntry::of(input);
    let (mut out, mut expected) = ([PATTERN; MOST_ROOM], [PATTERN; MOST_ROOM]);
    let number = I::catch_up(window, asked, &mut out[..room]);
    put_in_front(written, &mut expected);
    number != outcome.into() || out != expected
}

/// Whether the comparison and the recorded answers find a fault.
fn found<F: CatchUpFault>(recorded: &List<usize>) -> [bool; 2] {
    [
        subject::run::<CatchUps<Faulty<F>>>(ENOUGH, 7).is_err(),
        recorded.entries().any(differs::<Faulty<F>>),
    ]
}

#[test]
fn every_fault_is_found_by_the_comparison_and_by_the_recorded_answers() {
    let all = recording::catch_ups(SEED);
    assert_eq!(found::<NoFault>(&all), [false, false]);
    let faults: [(&str, fn(&List<usize>) -> [bool; 2]); 40] = [
        ("63 slots", found::<SixtyThreeSlots>),
        ("slots by size", found::<SlotsBySize>),
        ("65 sent", found::<SixtyFiveSent>),
        ("64 refused", found::<SixtyFourRefused>),
        ("slots trusted", found::<SlotsTrusted>),
        ("first alone", found::<FirstAlone>),
        ("last alone", found::<LastAlone>),
        ("ends alone", found::<EndsAlone>),
        ("all but the last", found::<AllButLast>),
        ("last asked of all", found::<LastAskedOfAll>),
        ("number after the last", found::<NumberAfterLast>),
        ("from the wall's own", found::<FromWallsOwn>),
        ("one too many", found::<OneTooMany>),
        ("from the second", found::<FromSecond>),
        ("falling", found::<Falling>),
        ("turn missed", found::<TurnMissed>),
        ("written anew", found::<WrittenAnew>),
        ("25 before 26", found::<RoomBeforeWindow>),
        ("25 before 27", found::<RoomBeforeCount>),
        ("26 before 27", found::<WindowBeforeCount>),
        ("room for all", found::<RoomForAll>),
        ("room for none", found::<RoomForNone>),
        ("as many as fit", found::<AsManyAsFit>),
        ("written before the room is tested", found::<WrittenBeforeRoom>),
        ("written before the window is tested", found::<WrittenBeforeWindow>),
        ("rest cleared", found::<RestCleared>),
        ("slot behind written", found::<SlotBehindWritten>),
        ("above accepted", found::<AboveAccepted>),
        ("number not compared", found::<NumberNotCompared>),
        ("half of the number", found::<HalfOfNumber>),
        ("mark not compared", found::<MarkNotCompared>),
        ("half of the mark", found::<HalfOfMark>),
        ("number alone", found::<NumberAlone>),
        ("mark and number alone", found::<MarkAndNumberAlone>),
        ("any operation", found::<AnyOperation>),
        ("four operations", found::<FourOperations>),
        ("earlier version", found::<EarlierVersion>),
        ("shorter length", found::<ShorterLength>),
        ("zeros behind the end", found::<ZerosBehindEnd>),
        ("whole windows alone", found::<WholeWindowsAlone>),
    ];
    for (name, found) in faults {
        assert_eq!(found(&all), [true, true], "{name}");
    }
}

#[test]
fn the_engine_answers_as_recorded() {
    assert_eq!(recording::catch_ups(SEED).entries().position(differs::<Engine>), None);
}

#[test]
fn a_fault_of_the_sum_is_found() {
    assert!(subject::run::<CatchUps<OneCallMore>>(ENOUGH, 7).is_err());
}

/// How many slots of the smallest case are not zeros.
fn slots_of_smallest<F: CatchUpFault>() -> usize {
    let report = subject::run::<CatchUps<Faulty<F>>>(ENOUGH, 7).expect_err("a fault was planted");
    let case = report.lines().nth(1).expect("the smallest case stands in the second line");
    case.matches(", slot ").count()
}

#[test]
fn faults_are_shrunk() {
    assert_eq!(slots_of_smallest::<RoomBeforeWindow>(), 0);
    assert_eq!(slots_of_smallest::<SixtyThreeSlots>(), 1);
    assert_eq!(slots_of_smallest::<WrittenAnew>(), 1);
    assert_eq!(slots_of_smallest::<TurnMissed>(), 2);
    assert_eq!(slots_of_smallest::<SixtyFourRefused>(), 64);
}
