//! The relation that a desk highlights.

use crate::relation_words;
use mulkefi::svg::Panel;
use mulkefi::{Curve, Drawing, Edit, Id, Position, Refusal, UnmetRelation};

/// A refusal by 13 or 19 and its place, with the drawing and the curve of its edit.
#[derive(Clone)]
pub struct Highlight {
    refusal: Refusal,
    place: usize,
    drawing: Drawing,
    curve: Id,
}

impl Highlight {
    /// None for a refusal that names no relation of the drawing.
    pub fn of(refusal: Refusal, drawing: &Drawing, edit: &Edit) -> Option<Highlight> {
        refusal.relation(drawing)?;
        let (place, drawing, curve) = (refusal.place()?, drawing.clone(), edit.curve);
        Some(Highlight { refusal, place, drawing, curve })
    }

    fn relation(&self) -> Option<UnmetRelation<'_>> {
        self.refusal.relation(&self.drawing)
    }

    /// The number, the place and the relation in words.
    pub fn caption(&self) -> String {
        let (number, place, words) = (self.refusal.number(), self.place, self.words());
        format!("Refused by {number}, relation {place}: {words}.")
    }

    /// The relation as it stood then; for a pin, which stood nowhere, the curve of the edit.
    pub fn draw(&self, panel: &mut Panel) {
        match self.relation() {
            Some(UnmetRelation::Standing(relation)) => {
                panel.highlight_relation(&self.drawing, relation)
            }
            Some(UnmetRelation::Pin) => panel.highlight_curve(&self.drawing, self.curve),
            None => {}
        }
    }

    /// What the relation says.
    pub fn words(&self) -> String {
        let words = |relation| relation_words::unmet(&self.drawing, relation, self.curve);
        self.relation().map_or(String::new(), words)
    }

    /// The curves to be highlighted, as they stood then.
    pub fn curves(&self) -> Vec<&Curve> {
        let ids = match self.relation() {
            Some(UnmetRelation::Standing(relation)) => relation.curves(),
            Some(UnmetRelation::Pin) => vec![self.curve],
            None => Vec::new(),
        };
        ids.into_iter().filter_map(|id| self.drawing.curve(id)).collect()
    }

    /// The points to be highlighted, as they stood then.
    pub fn points(&self) -> Vec<Position> {
        let ids = match self.relation() {
            Some(UnmetRelation::Standing(relation)) => relation.points(),
            _ => Vec::new(),
        };
        let points = ids.into_iter().filter_map(|id| self.drawing.point(id));
        points.map(|point| Position::new(point.x, point.y)).collect()
    }

    /// The drawing whose edit was refused.
    pub fn drawing(&self) -> &Drawing {
        &self.drawing
    }
}
