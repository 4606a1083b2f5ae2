//! What a page asks of the hall, read from the form that it posts.

use super::air::Settings;
use super::form::{Form, Reading};
use super::member::Member;
use super::offer::Offered;
use super::session::Session;
use mulkefi::{Operation, Position};
use std::time::Duration;

#[derive(Clone, Copy, Debug, PartialEq)]
pub enum Asked {
    Edit {
        operation: Operation,
        at: Position,
        within: f64,
    },
    Draw {
        member: Member,
        within: f64,
    },
    Radio(Settings),
    /// Whether it is to be open.
    Door(bool),
    SendAgain,
    /// By the place among those that are offered.
    New(usize),
}

const OPERATIONS: [(&str, Operation); 3] =
    [("trim", Operation::Trim), ("split", Operation::Split), ("extend", Operation::Extend)];

impl Asked {
    /// Reads the body of a POST to a path that takes one, or says which field is wrong.
    pub fn read(path: &str, body: &[u8], offered: &[Offered]) -> Reading<Asked> {
        let form = |fields: &[&str]| Form::parse(body, fields);
        match path {
            "/edit" => edit(&form(&["operation", "x", "y", "within"])?),
            "/draw" => draw(&form(&["kind", "x1", "y1", "x2", "y2", "x3", "y3", "within"])?),
            "/radio" => radio(&form(&["loss", "repeats", "reordering"])?),
            "/door" => {
                let form = form(&["open"])?;
                Ok(Asked::Door(form.choice("open", &[("yes", true), ("no", false)])?))
            }
            "/send-again" => form(&[]).map(|_| Asked::SendAgain),
            "/new" => {
                let names = offered.iter().map(|one| one.name.as_str()).zip(0..);
                let names: Vec<(&str, usize)> = names.collect();
                Ok(Asked::New(form(&["bridge"])?.choice("bridge", &names)?))
            }
            _ => Err("Nothing is asked at this path.".into()),
        }
    }

    pub fn of(&self, session: &mut Session, offered: &[Offered], now: Duration) {
        match *self {
            Asked::Edit { operation, at, within } => session.edit(operation, at, within, now),
            Asked::Draw { member, within } => session.draw(&member, within, now),
            Asked::Radio(settings) => session.set_radio(settings, now),
            Asked::Door(is_open) => session.set_door(is_open, now),
            Asked::SendAgain => session.send_again(now),
            Asked::New(place) => session.begin(&offered[place], now),
        }
    }
}

fn edit(form: &Form) -> Reading<Asked> {
    Ok(Asked::Edit {
        operation: form.choice("operation", &OPERATIONS)?,
        at: position(form, "x", "y")?,
        within: form.distance("within")?,
    })
}

fn draw(form: &Form) -> Reading<Asked> {
    let kind = form.choice("kind", &["line", "arc", "circle"].map(|kind| (kind, kind)))?;
    let (first, second) = (position(form, "x1", "y1")?, position(form, "x2", "y2")?);
    let third = ["x3", "y3"].into_iter().find(|name| form.get(name).is_some());
    let member = match (kind, third) {
        ("arc", _) => Member::Arc { ends: [first, second], through: position(form, "x3", "y3")? },
        (kind, Some(extra)) => {
            return Err(format!("`{extra}` is no field of a {kind}: two positions are expected."));
        }
        ("circle", None) => Member::Circle { centre: first, rim: second },
        (_, None) => Member::Line { ends: [first, second] },
    };
    Ok(Asked::Draw { member, within: form.distance("within")? })
}

fn radio(form: &Form) -> Reading<Asked> {
    Ok(Asked::Radio(Settings {
        loss: form.percent("loss")?,
        repeats: form.percent("repeats")?,
        reordering: form.percent("reordering")?,
    }))
}

fn position(form: &Form, x: &str, y: &str) -> Reading<Position> {
    Ok(Position::new(form.number(x)?, form.number(y)?))
}

#[cfg(test)]
mod tests {
    use super::*;
    use crate::serve::offer;

    fn read(path: &str, body: &str) -> Reading<Asked> {
        Asked::read(path, body.as_bytes(), &offer::all())
    }

    #[test]
    fn forms_are_read() {
        let at = Position::new;
        let (first, second) = (at(1.0, 2.0), at(3.0, 4.0));
        let positions = "x1=1&y1=2&x2=3&y2=4&within=0";
        let draw = |member| Ok(Asked::Draw { member, within: 0.0 });
        for (path, body, asked) in [
            (
                "/edit",
                "operation=split&x=1&y=-2.5&within=0.5",
                Ok(Asked::Edit { operation: Operation::Split, at: at(1.0, -2.5), within: 0.5 }),
            ),
            (
                "/draw",
                &format!("kind=line&{positions}"),
                draw(Member::Line { ends: [first, second] }),
            ),
            (
                "/draw",
                &format!("kind=circle&{positions}"),
                draw(Member::Circle { centre: first, rim: second }),
            ),
            (
                "/draw",
                &format!("kind=arc&{positions}&x3=5&y3=6"),
                draw(Member::Arc { ends: [first, second], through: at(5.0, 6.0) }),
            ),
            (
                "/radio",
                "loss=1&repeats=2&reordering=100",
                Ok(Asked::Radio(Settings { loss: 1, repeats: 2, reordering: 100 })),
            ),
            ("/door", "open=no", Ok(Asked::Door(false))),
            ("/send-again", "", Ok(Asked::SendAgain)),
            ("/new", "bridge=free-arch", Ok(Asked::New(2))),
        ] {
            assert_eq!(read(path, body), asked, "{path} {body}");
        }
    }

    #[test]
    fn wrong_fields_are_named() {
        for (path, body, named) in [
            ("/edit", "operation=cut&x=1&y=2&within=1", "`operation` is `cut`: one of trim"),
            ("/edit", "operation=trim&x=nan&y=2&within=1", "`x` is `nan`: a finite number"),
            ("/edit", "operation=trim&x=1&y=2", "`within` is missing"),
            ("/edit", "operation=trim&x=1&y=2&within=-1", "`within` is -1"),
            ("/draw", "kind=line&x1=1&y1=2&x2=3&within=1", "`y2` is missing"),
            ("/draw", "kind=arc&x1=1&y1=2&x2=3&y2=4&x3=5&within=1", "`y3` is missing"),
            ("/draw", "kind=line&x1=1&y1=2&x2=3&y2=4&y3=5&within=1", "`y3` is no field of a line"),
            ("/draw", "kind=conic&x1=1&y1=2&x2=3&y2=4&within=1", "`kind` is `conic`"),
            ("/radio", "loss=101&repeats=0&reordering=0", "`loss` is `101`"),
            ("/radio", "loss=1&repeats=0", "`reordering` is missing"),
            ("/door", "open=maybe", "`open` is `maybe`: one of yes, no"),
            ("/send-again", "all=yes", "`all` is no field here: no field is expected"),
            ("/new", "bridge=none", "`bridge` is `none`: one of opening, round-arch"),
        ] {
            let sentence = read(path, body).expect_err(named);
            assert!(sentence.contains(named), "{path} {body}: {sentence}");
        }
    }
}
