//! What happens in a hall: edits over a radio that loses, power cuts at the worst moments, a closed door, a
//! desk that is set back, a new drawing, and a neighbour. After each part the wall has its desk's image,
//! count and mark, and both have them on disk.

use crate::desk::DeskHost;
use crate::radio::{Radio, Station};
use crate::state::{load, Fallible};
use crate::wall::{Told, WallHost};
use mulkefi::{Drawing, Edit, Kind, Operation, WINDOW_MESSAGES, WINDOW_SIZE};
use std::fmt::Write;
use std::fs;
use std::path::{Path, PathBuf};

const MOST_TURNS: usize = 5000;
const MOST_TRIES: usize = 20;
/// Where a state's count has its lowest byte.
const COUNT_END: usize = 23;
const LINE: mulkefi::Id = 3;
const PIECE: mulkefi::Id = 5;

/// A hall before its first boot.
pub struct Hall {
    folder: PathBuf,
    seed: u64,
}

/// A hall whose hosts run.
struct Story {
    desk: DeskHost,
    wall: WallHost,
    radio: Radio,
    folder: PathBuf,
    screen: String,
    /// Where the line was split last.
    x: f64,
}

/// The image of a line from (0, 0) to (x, 0): points 1 and 2, line 3.
fn line_to(x: f64) -> Vec<u8> {
    let mut drawing = Drawing::new();
    let (a, b) = (drawing.add_point(0.0, 0.0), drawing.add_point(x, 0.0));
    drawing.add_curve(Kind::Line { a, b });
    drawing.to_image()
}

fn ensure(holds: bool, sentence: &str) -> Fallible<()> {
    holds.then_some(()).ok_or_else(|| sentence.into())
}

impl Hall {
    pub fn new(folder: &Path, seed: u64) -> Hall {
        Hall { folder: folder.to_path_buf(), seed }
    }

    /// Both boot for the first time: the desk starts from the first image, and the wall from its desk.
    fn boot(self) -> Fallible<Story> {
        let (mut radio, mut screen) = (Radio::new(self.seed), String::new());
        fs::write(self.folder.join("first.image"), line_to(4.0))?;
        let desk = DeskHost::boot(&self.folder, &mut screen)?;
        let wall = WallHost::boot(&self.folder, &mut radio, &mut screen);
        Ok(Story { desk, wall, radio, folder: self.folder, screen, x: 4.0 })
    }
}

/// Runs the parts, and gives what the screens have shown.
pub fn run(hall: Hall) -> Fallible<String> {
    type Part = (&'static str, fn(&mut Story) -> Fallible<()>);
    const PARTS: [Part; 8] = [
        ("start", Story::starts),
        ("edits", Story::edits),
        ("power cuts of the desk", Story::desk_cuts),
        ("power cuts of the wall", Story::wall_cuts),
        ("closed door", Story::door),
        ("desk set back", Story::set_back),
        ("new drawing", Story::new_drawing),
        ("neighbour", Story::neighbour),
    ];
    let mut story = hall.boot()?;
    for (name, play) in PARTS {
        play(&mut story).map_err(|sentence| format!("{}{name}: {sentence}", story.screen))?;
        let (count, size) = (story.desk.desk.count(), story.desk.desk.image().len());
        let same = "the same at desk and wall";
        writeln!(story.screen, "{name}: count {count}, image of {size} bytes, {same}")?;
    }
    story.summary()
}

impl Story {
    fn summary(mut self) -> Fallible<String> {
        let (radio, seen) = (&self.radio, &self.wall.seen);
        writeln!(self.screen, "radio: {} lost, {} came twice", radio.lost, radio.repeated)?;
        write!(self.screen, "wall: {} applied, {} old, ", seen.applied, seen.old)?;
        write!(self.screen, "{} ahead, {} foreign, ", seen.ahead, seen.foreign)?;
        writeln!(self.screen, "{} not read", seen.unread)?;
        let (caught_up, given) = (self.desk.caught_up, self.desk.given);
        writeln!(self.screen, "desk: {caught_up} catch-ups, {given} starts given")?;
        Ok(self.screen)
    }

    /// A turn of both loops. Behind a closed door the wall is not reached by any way.
    fn turn(&mut self) {
        self.desk.turn(&mut self.radio, &mut self.screen);
        if !self.radio.is_door_closed {
            self.wall.turn(&mut self.radio, &mut self.screen);
        }
    }

    /// Whether the wall has what its desk has, and nothing is on its way.
    fn is_settled(&mut self) -> bool {
        let desk = &self.desk.desk;
        let is_same = self.wall.wall.as_ref().is_some_and(|wall| {
            (wall.mark(), wall.count(), wall.image()) == (desk.mark(), desk.count(), desk.image())
        });
        is_same && [Station::Desk, Station::Wall].iter().all(|to| self.radio.number(*to) == 0)
    }

    /// Goes on until the wall has what its desk has, in memory and on disk.
    fn settle(&mut self) -> Fallible<()> {
        let mut turns = 0;
        while !self.is_settled() && turns < MOST_TURNS {
            self.turn();
            turns += 1;
        }
        ensure(self.wall.parted.is_none(), "the wall has parted from its desk")?;
        ensure(self.is_settled(), "the wall has not what its desk has")?;
        let desk = &self.desk.desk;
        for (name, window_size) in [("desk.state", WINDOW_SIZE), ("wall.state", 0)] {
            let kept = load(&self.folder, name, window_size)?.ok_or("a state was not kept")?;
            let is_same = (kept.mark, kept.count, &kept.image[..])
                == (desk.mark(), desk.count(), desk.image());
            ensure(is_same, "what was kept is not what is shown")?;
        }
        Ok(())
    }

    /// The next edit: a split between the line's start and the split before.
    fn next_split(&mut self) -> Edit {
        self.x *= 0.97;
        Edit { operation: Operation::Split, curve: LINE, x: self.x, y: 0.0 }
    }

    fn touch(&mut self, edit: Edit) {
        self.desk.touch(&edit, &mut self.radio, &mut self.screen);
    }

    fn split(&mut self) {
        let edit = self.next_split();
        self.touch(edit);
    }

    fn splits(&mut self, number: usize) {
        for _ in 0..number {
            self.split();
            self.turn();
        }
    }

    fn starts(&mut self) -> Fallible<()> {
        self.settle()?;
        ensure(self.desk.desk.count() == 0, "a start has count 0")
    }

    fn edits(&mut self) -> Fallible<()> {
        self.splits(1);
        self.touch(Edit { operation: Operation::Trim, curve: PIECE, x: 4.0, y: 0.0 });
        self.touch(Edit { operation: Operation::Extend, curve: LINE, x: 0.0, y: 0.0 });
        self.splits(10);
        self.settle()?;
        ensure(self.desk.desk.count() == 12, "12 of 13 edits are accepted")
    }

    fn desk_cuts(&mut self) -> Fallible<()> {
        [Cut::BeforeKeep, Cut::InKeep, Cut::BeforeSend, Cut::AfterSend]
            .into_iter()
            .try_for_each(|cut| self.cut_desk_at(cut))
    }

    fn cut_desk_at(&mut self, cut: Cut) -> Fallible<()> {
        let is_kept = matches!(cut, Cut::BeforeSend | Cut::AfterSend);
        let mark = self.desk.desk.mark();
        let count = self.desk.desk.count() + if is_kept { 1 } else { 0 };
        let edit = self.next_split();
        let (next, accepted) = self.desk.edit(&edit)?;
        if let Cut::InKeep = cut {
            // The file beside is half written, and was not renamed.
            let bytes = fs::read(self.folder.join("desk.state"))?;
            fs::write(self.folder.join("desk.state.new"), &bytes[..bytes.len() / 2])?;
        }
        if is_kept {
            self.desk.keep(next)?;
        }
        if let Cut::AfterSend = cut {
            self.radio.send(Station::Desk, &accepted.message);
        }
        self.desk.cut(&mut self.screen)?;
        let found = (self.desk.desk.count(), self.desk.desk.mark());
        ensure(found == (count, mark), "the desk goes on from what it kept last")?;
        self.settle()
    }

    /// The wall applies an edit, and does not keep it; of the edits that are made for it some are lost.
    fn apply_one(&mut self) -> Fallible<()> {
        for _ in 0..MOST_TRIES {
            self.settle()?;
            self.split();
            let packet = self.radio.receive(Station::Wall);
            if packet.is_some_and(|packet| self.wall.deliver(&packet.bytes)) {
                return Ok(());
            }
        }
        Err("no edit reaches the wall".into())
    }

    /// The wall's power fails before it keeps an edit that it has applied; then its file is damaged, and it
    /// is started again.
    fn wall_cuts(&mut self) -> Fallible<()> {
        let given = self.desk.given;
        self.apply_one()?;
        self.wall.cut(&mut self.radio, &mut self.screen);
        let count = self.wall.wall.as_ref().map(|wall| wall.count());
        ensure(count.is_some_and(|count| count < self.desk.desk.count()), "the wall is set back")?;
        self.settle()?;
        ensure(self.desk.given == given, "a wall that is set back catches up")?;
        let path = self.folder.join("wall.state");
        let mut bytes = fs::read(&path)?;
        bytes[COUNT_END] ^= 1; // the image is still a good one
        fs::write(&path, bytes)?;
        self.wall.cut(&mut self.radio, &mut self.screen);
        ensure(self.wall.wall.is_none(), "a damaged state is not used")?;
        self.settle()?;
        ensure(self.desk.given > given, "a wall without a state is started again")
    }

    /// The door is closed for ten edits, and the wall catches up; then for more than a window holds, and it
    /// is started again.
    fn door(&mut self) -> Fallible<()> {
        let (given, caught_up) = (self.desk.given, self.desk.caught_up);
        self.behind_door(10)?;
        let is_caught_up = self.desk.given == given && self.desk.caught_up > caught_up;
        ensure(is_caught_up, "a wall that is 10 back catches up")?;
        self.behind_door(WINDOW_MESSAGES + 1)?;
        ensure(self.desk.given > given, "a wall that is too far back is started again")
    }

    fn behind_door(&mut self, edits: usize) -> Fallible<()> {
        self.radio.is_door_closed = true;
        self.splits(edits);
        self.radio.is_door_closed = false;
        self.settle()
    }

    /// Someone puts an earlier copy of the desk's state in place of its last one.
    fn set_back(&mut self) -> Fallible<()> {
        let (mark, path) = (self.desk.desk.mark(), self.folder.join("desk.state"));
        let earlier = fs::read(&path)?;
        self.splits(3);
        self.settle()?;
        fs::write(&path, earlier)?;
        self.desk.cut(&mut self.screen)?;
        ensure(self.desk.desk.mark() == mark, "the desk can't tell that it was set back")?;
        self.settle()?;
        let is_anew = self.desk.desk.mark() != mark && self.desk.desk.count() == 0;
        ensure(is_anew, "27 starts the desk with a new mark")?;
        self.splits(3);
        self.settle()
    }

    /// A new drawing, while messages of the one before are still on their way.
    fn new_drawing(&mut self) -> Fallible<()> {
        let (image, foreign) = (line_to(8.0), self.wall.seen.foreign);
        for _ in 0..MOST_TRIES {
            if self.radio.number(Station::Wall) == 0 {
                self.split();
            }
        }
        // step: new drawing
        self.desk.start(&image)?;
        self.desk.give_start()?;
        self.wall.take_start()?;
        // end
        self.x = 8.0;
        self.splits(5);
        self.settle()?;
        ensure(self.desk.desk.count() == 5, "the new start counts from 0")?;
        ensure(self.wall.seen.foreign > foreign, "messages of the start before are foreign")
    }

    /// A second desk and its wall use the same radio.
    fn neighbour(&mut self) -> Fallible<()> {
        let (foreign, given) = (self.wall.seen.foreign, self.desk.given);
        let folder = self.folder.join("neighbour");
        fs::create_dir(&folder)?;
        fs::write(folder.join("first.image"), line_to(4.0))?;
        let mut neighbour = DeskHost::boot(&folder, &mut self.screen)?;
        for edit in 1..=20 {
            let x = 4.0 - 0.1 * f64::from(edit);
            let split = Edit { operation: Operation::Split, curve: LINE, x, y: 0.0 };
            let (next, accepted) = neighbour.edit(&split)?;
            neighbour.keep(next)?;
            self.radio.send(Station::Neighbour, &accepted.message);
            let told = Told { mark: neighbour.desk.mark(), count: 0 };
            self.radio.send(Station::Neighbour, &told.to_bytes());
            self.splits(1);
        }
        self.settle()?;
        ensure(self.desk.desk.count() == 25, "the desk goes on as it was")?;
        ensure(self.wall.seen.foreign > foreign, "the neighbour's messages are foreign")?;
        ensure(self.desk.given == given, "the neighbour's wall gets no start")
    }
}

/// Where in its work the desk's power fails.
enum Cut {
    BeforeKeep,
    InKeep,
    BeforeSend,
    AfterSend,
}
