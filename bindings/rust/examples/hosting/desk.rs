//! The desk's host.

use crate::radio::{Packet, Radio, Station};
use crate::state::{keep, load, new_mark, Count, Fallible, State};
use crate::wall::Told;
use mulkefi::{Accepted, Desk, Edit, Refusal, WINDOW_SIZE};
use std::fmt::Write;
use std::fs;
use std::path::{Path, PathBuf};

pub struct DeskHost {
    pub desk: Desk,
    folder: PathBuf,
    /// Catch-ups sent, and starts given to the wall.
    pub caught_up: usize,
    pub given: usize,
}

// step: first image
/// Reads an image from a file of its own, as a drawing program left it.
fn read_image(folder: &Path, name: &str) -> Fallible<Vec<u8>> {
    let image = fs::read(folder.join(name)).map_err(|error| format!("{name}: {error}"))?;
    mulkefi::test(&image).map_err(|refusal| format!("{name} is refused by {refusal}"))?;
    Ok(image)
}
// end

// step: start
/// A start of a desk from any image: a new mark, count 0 and a window of zeros, kept before the first edit.
fn start(folder: &Path, image: &[u8]) -> Fallible<Desk> {
    let desk = Desk::start(image, new_mark()?)?;
    keep_desk(folder, &desk)?;
    Ok(desk)
}
// end

// step: keep desk
/// After an accepted edit, and before its message is sent.
fn keep_desk(folder: &Path, desk: &Desk) -> Fallible<()> {
    let (image, window) = (desk.image().to_vec(), desk.window().to_vec());
    let state = State { image, count: desk.count(), mark: desk.mark(), window };
    keep(folder, "desk.state", &state).map_err(|error| format!("desk.state: {error}").into())
}
// end

// step: boot desk
/// The desk goes on from its last state, under its mark. Without one it is a new start, and its walls are
/// started again.
fn boot(folder: &Path, screen: &mut String) -> Fallible<Desk> {
    let kept = load(folder, "desk.state", WINDOW_SIZE).unwrap_or_else(|sentence| {
        *screen += &format!("desk: {sentence}\n");
        None
    });
    match kept {
        Some(State { image, mark, count, window }) => {
            let window = window.as_slice().try_into()?;
            Ok(Desk::resume(&image, mark, count, window)?)
        }
        None => start(folder, &read_image(folder, "first.image")?),
    }
}
// end

impl DeskHost {
    pub fn boot(folder: &Path, screen: &mut String) -> Fallible<DeskHost> {
        let desk = boot(folder, screen)?;
        Ok(DeskHost { desk, folder: folder.to_path_buf(), caught_up: 0, given: 0 })
    }

    /// A power cut: the memory is gone, and the host boots.
    pub fn cut(&mut self, screen: &mut String) -> Fallible<()> {
        self.desk = boot(&self.folder, screen)?;
        Ok(())
    }

    /// A new start from another image.
    pub fn start(&mut self, image: &[u8]) -> Fallible<()> {
        self.desk = start(&self.folder, image)?;
        Ok(())
    }

    // step: edit
    /// Makes an edit in a copy of the desk, which takes its place once it is kept.
    pub fn edit(&self, edit: &Edit) -> Result<(Desk, Accepted), Refusal> {
        let mut next = self.desk.clone();
        let accepted = next.edit(edit)?;
        Ok((next, accepted))
    }
    // end

    /// Where the disk fails, the edit is taken back: no one has its message.
    pub fn keep(&mut self, next: Desk) -> Fallible<()> {
        keep_desk(&self.folder, &next)?;
        self.desk = next;
        Ok(())
    }

    // step: show
    /// What the desk's screen shows of an edit. A refusal's sentence has its number and, by 13 and 19, the
    /// relation's place.
    fn show(&self, outcome: Result<Accepted, Refusal>, screen: &mut String) {
        let line = match outcome {
            Err(refusal) => format!("desk: refused by {refusal}\n"),
            Ok(Accepted { report, .. }) if report.removed != 0 => format!(
                "desk: edit {} removed curve {}, from point {} to point {}\n",
                self.desk.count(),
                report.removed,
                report.start,
                report.end
            ),
            Ok(_) => String::new(),
        };
        *screen += &line;
    }
    // end

    // step: send
    /// A visitor's touch: the edit, then the disk, then the screen, and the message last.
    pub fn touch(&mut self, edit: &Edit, radio: &mut Radio, screen: &mut String) {
        let (next, accepted) = match self.edit(edit) {
            Ok(made) => made,
            Err(refusal) => return self.show(Err(refusal), screen),
        };
        if let Err(sentence) = self.keep(next) {
            *screen += &format!("desk: {sentence}, and the edit is taken back\n");
            return;
        }
        self.show(Ok(accepted), screen);
        radio.send(Station::Desk, &accepted.message);
    }
    // end

    // step: give start
    /// Image, count and mark of this moment, for the wall. The file stands for a way that loses nothing.
    pub fn give_start(&mut self) -> Fallible<()> {
        let Self { desk, folder, given, .. } = self;
        let (image, window) = (desk.image().to_vec(), Vec::new());
        let state = State { image, count: desk.count(), mark: desk.mark(), window };
        *given += 1;
        keep(folder, "wall.start", &state).map_err(|error| format!("wall.start: {error}").into())
    }
    // end

    // step: set back
    /// 27: a wall has edits that the desk has not. The desk's present drawing becomes a new start, under a
    /// new mark.
    fn start_anew(&mut self, screen: &mut String) -> Fallible<()> {
        writeln!(screen, "desk: a wall's count is above the desk's: started with a new mark")?;
        self.desk = start(&self.folder, self.desk.image())?;
        self.give_start()
    }
    // end

    // step: catch up
    /// Sends a wall what it lacks, by the count that it told.
    fn catch_up(&mut self, count: Count, radio: &mut Radio, screen: &mut String) -> Fallible<()> {
        match self.desk.catch_up(count) {
            Ok(due) => {
                due.iter().for_each(|message| radio.send(Station::Desk, message));
                self.caught_up += usize::from(!due.is_empty());
                Ok(())
            }
            Err(Refusal::LeftWindow) => self.give_start(),
            Err(Refusal::CountAbove) => self.start_anew(screen),
            Err(refusal) => Err(refusal.into()),
        }
    }
    // end

    // step: hear
    /// A packet from the radio. One of 16 bytes is what a wall tells: its mark and its count.
    fn hear(&mut self, packet: &Packet, radio: &mut Radio, screen: &mut String) -> Fallible<()> {
        match Told::from_bytes(&packet.bytes) {
            Some(told) if told.mark == self.desk.mark() => self.catch_up(told.count, radio, screen),
            // Our own wall, without a state or at the mark of an earlier start.
            Some(_) if packet.from == Station::Wall => self.give_start(),
            _ => Ok(()),
        }
    }

    /// A turn of the desk's loop, beside the visitor's touches. What fails is tried again when the wall tells
    /// its count again.
    pub fn turn(&mut self, radio: &mut Radio, screen: &mut String) {
        while let Some(packet) = radio.receive(Station::Desk) {
            if let Err(sentence) = self.hear(&packet, radio, screen) {
                *screen += &format!("desk: {sentence}\n");
            }
        }
    }
    // end
}
