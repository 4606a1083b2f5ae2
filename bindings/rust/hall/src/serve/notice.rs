//! What the last request at the desk gave, for the person there.

use super::json::Json;
use crate::relation_words::named;
use mulkefi::{Drawing, Edit, Operation, Refusal};

#[derive(Clone, Copy, Debug, PartialEq, Eq)]
pub enum Kind {
    Accepted,
    Refused,
    Told,
}

#[derive(Clone, Debug, PartialEq, Eq)]
pub struct Notice {
    pub kind: Kind,
    pub title: String,
    pub text: String,
    pub number: Option<u16>,
    /// In words, where the refusal names one.
    pub relation: Option<String>,
}

impl Notice {
    fn new(kind: Kind, title: &str, text: String) -> Notice {
        Notice { kind, title: title.into(), text, number: None, relation: None }
    }

    pub fn accepted(title: &str, text: String) -> Notice {
        Notice::new(Kind::Accepted, title, text)
    }

    pub fn told(title: &str, text: String) -> Notice {
        Notice::new(Kind::Told, title, text)
    }

    /// A refusal of the host's own, which has no number.
    pub fn declined(title: &str, text: String) -> Notice {
        Notice::new(Kind::Refused, title, text)
    }

    /// A refusal of the engine's.
    pub fn refused(refusal: Refusal, relation: Option<String>) -> Notice {
        let number = refusal.number();
        let title = format!("Refused: {number}");
        let notice = Notice::new(Kind::Refused, &title, refusal.sentence().into());
        Notice { number: Some(number), relation, ..notice }
    }

    /// An accepted edit, with the drawings before and after it.
    pub fn edited(before: &Drawing, after: &Drawing, edit: &Edit) -> Notice {
        let curve = named(before, edit.curve);
        let more = after.curves.len().saturating_sub(before.curves.len());
        let (title, text) = match edit.operation {
            Operation::Trim if after.curve(edit.curve).is_none() => {
                ("Trimmed", format!("All of {curve} is cut away."))
            }
            Operation::Trim => ("Trimmed", format!("A piece of {curve} is cut away.")),
            Operation::Split => ("Split", format!("There are {} pieces of {curve}.", more + 1)),
            Operation::Extend => {
                ("Extended", format!("The new end of {curve} lies on the curve that stops it."))
            }
        };
        Notice::accepted(title, text)
    }

    pub fn to_json(&self, serial: u64) -> Json {
        let kind = match self.kind {
            Kind::Accepted => "accepted",
            Kind::Refused => "refused",
            Kind::Told => "told",
        };
        Json::Object(vec![
            ("kind", kind.into()),
            ("title", self.title.as_str().into()),
            ("text", self.text.as_str().into()),
            ("number", self.number.map(u32::from).into()),
            ("relation", self.relation.as_deref().into()),
            ("serial", serial.into()),
        ])
    }
}
