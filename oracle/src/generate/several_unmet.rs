//! Relations about a line that is extended: several that are not met before the extend, or several
//! that the extend breaks, at any places among met ones.

use super::extensions::Extended;
use super::scene::Scene;
use crate::drawing::*;

/// Adds two to four relations that are not met before the extend, or that it breaks, and up to three
/// met ones.
pub fn add_several(scene: &mut Scene, extended: &Extended, line: Id) {
    for _ in 0..scene.random.below(4) {
        let relation = distance(scene, extended, 0.0);
        insert(scene, relation);
    }
    let before = scene.random.one_in(2);
    for _ in 0..scene.random.between(2, 4) {
        let relation =
            if before { unmet(scene, extended, line) } else { broken(scene, extended, line) };
        insert(scene, relation);
    }
}

/// At any place of the table, while there is room.
fn insert(scene: &mut Scene, relation: Option<Relation>) {
    let held = scene.drawing.relations.len();
    if let Some(relation) = relation.filter(|_| held < MAX_RELATIONS) {
        let at = scene.random.below(held + 1);
        scene.drawing.relations.insert(at, relation);
    }
}

/// Between two points that stay where they are, off its value by so much.
fn distance(scene: &mut Scene, extended: &Extended, off: f64) -> Option<Relation> {
    let (p, q) = (scene.any_point(), scene.any_point());
    let stays = |point: Id| point != extended.moved;
    let value = gap(scene, p, q) + off;
    (p != q && stays(p) && stays(q)).then_some(Relation::Distance { p, q, value })
}

fn gap(scene: &Scene, p: Id, q: Id) -> f64 {
    let ((px, py), (qx, qy)) = (scene.position(p), scene.position(q));
    (px - qx).hypot(py - qy)
}

/// A relation of the line, of its ends or of other points that is not met, at times by a rounding.
fn unmet(scene: &mut Scene, extended: &Extended, line: Id) -> Option<Relation> {
    let &Extended { kept: p, moved: q, .. } = extended;
    let edge = scene.random.near(1e-7).abs();
    let off = scene.random.pick(&[1.0, 1.0, 0.25, edge]);
    let value = gap(scene, p, q) + off;
    match scene.random.below(6) {
        0 => Some(Relation::Length { line, value }),
        1 => Some(Relation::Distance { p, q, value }),
        2 => Some(Relation::Coincident { p, q }),
        3 => Some(Relation::Midpoint { p: scene.any_point(), line }),
        _ => distance(scene, extended, off),
    }
}

/// A relation of the line or of the end to move that is met as long as the end stays.
fn broken(scene: &mut Scene, extended: &Extended, line: Id) -> Option<Relation> {
    let &Extended { kept: p, moved: q, .. } = extended;
    match scene.random.below(5) {
        0 => Some(Relation::Length { line, value: gap(scene, p, q) }),
        1 => Some(Relation::Distance { p, q, value: gap(scene, p, q) }),
        2 => {
            let p = scene.put(&extended.frame, extended.length * 0.5, 0.0);
            Some(Relation::Midpoint { p, line })
        }
        3 => {
            let p = scene.put(&extended.frame, extended.length, 0.0);
            Some(Relation::Coincident { p, q })
        }
        _ => {
            let p = scene.any_point();
            (p != q).then_some(Relation::Distance { p, q, value: gap(scene, p, q) })
        }
    }
}
