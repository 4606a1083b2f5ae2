//! The state of a session as pages get it.

use super::air::{Air, Counts, Settings};
use super::json::Json;
use super::offer::Offered;
use super::session::{drawing_of, Session, WallTally};
use crate::highlight::Highlight;
use mulkefi::{Bounds, Curve, Drawing, Kind, Mark, Position, Stroke};

pub fn of(session: &Session, offered: &[Offered]) -> Json {
    let bridges = offered.iter().map(|one| {
        let (name, title) = (one.name.as_str(), one.title.as_str());
        Json::Object(vec![("name", name.into()), ("title", title.into())])
    });
    Json::Object(vec![
        ("revision", session.revision.into()),
        ("formats", formats()),
        ("bridges", bridges.collect()),
        ("view", view(&session.view)),
        ("desk", desk(session)),
        ("wall", wall(session)),
        ("alike", session.is_alike().into()),
        ("behind", session.behind().into()),
        ("radio", radio(&session.air, &session.tally)),
        ("wall_tally", tally(&session.tally)),
        ("notice", session.notice().map(|(notice, serial)| notice.to_json(serial)).into()),
    ])
}

fn formats() -> Json {
    let versions = mulkefi::versions();
    Json::Object(vec![
        ("image", u32::from(versions.image).into()),
        ("message", u32::from(versions.message).into()),
        ("interface", mulkefi::interface().into()),
        ("library", mulkefi::library_version().to_string().into()),
    ])
}

fn view(bounds: &Bounds) -> Json {
    Json::Object(vec![
        ("left", bounds.low.x.into()),
        ("bottom", bounds.low.y.into()),
        ("right", bounds.high.x.into()),
        ("top", bounds.high.y.into()),
    ])
}

fn desk(session: &Session) -> Json {
    let Session { desk, desk_away, highlight, view, .. } = session;
    let mut fields = device(desk.count(), desk.mark(), desk.image(), desk_away, view);
    let highlight = highlight.as_ref().map(|highlight| highlighted(highlight, view));
    fields.push(("highlight", highlight.into()));
    Json::Object(fields)
}

fn wall(session: &Session) -> Json {
    let Session { wall, wall_away, view, .. } = session;
    let mut fields = device(wall.count(), wall.mark(), wall.image(), wall_away, view);
    let door = if session.door_is_open { "open" } else { "closed" };
    fields.push(("highlight", Json::Null));
    fields.push(("door", door.into()));
    fields.push(("mark_differs", session.mark_differs().into()));
    Json::Object(fields)
}

fn device(
    count: u32,
    mark: Mark,
    image: &[u8],
    away: &[Stroke],
    view: &Bounds,
) -> Vec<(&'static str, Json)> {
    let drawing = drawing_of(image);
    let curves = drawing.curves.iter().filter_map(|one| curve(&drawing, one, view));
    let points = drawing.points.iter().map(|point| {
        Json::Object(vec![
            ("id", point.id.into()),
            ("x", point.x.into()),
            ("y", point.y.into()),
            ("fixed", point.fixed.into()),
        ])
    });
    vec![
        ("count", count.into()),
        ("mark", mark.to_string().into()),
        ("bytes", image.len().into()),
        ("curves", curves.collect()),
        ("points", points.collect()),
        ("away", away.iter().map(stroke).collect()),
    ]
}

fn curve(drawing: &Drawing, curve: &Curve, view: &Bounds) -> Option<Json> {
    let kind = match curve.kind {
        Kind::Line { .. } => "line",
        Kind::Arc { .. } => "arc",
        Kind::Circle { .. } => "circle",
        Kind::Bezier { .. } => "bezier",
        Kind::Conic { .. } => "conic",
    };
    Some(Json::Object(vec![
        ("id", curve.id.into()),
        ("kind", kind.into()),
        ("construction", curve.construction.into()),
        ("centerline", curve.centerline.into()),
        ("stroke", stroke(&shown(drawing, curve, view)?)),
    ]))
}

/// A curve's stroke; an infinite line's goes over the edges of what is shown.
fn shown(drawing: &Drawing, curve: &Curve, view: &Bounds) -> Option<Stroke> {
    let stroke = Stroke::of(drawing, curve)?;
    Some(if curve.infinite { stroke.endless(view) } else { stroke })
}

fn stroke(stroke: &Stroke) -> Json {
    let numbers = |numbers: &[f64]| numbers.iter().map(|number| Json::from(*number)).collect();
    Json::Object(vec![match stroke {
        Stroke::Circle { centre, radius } => ("circle", numbers(&[centre.x, centre.y, *radius])),
        Stroke::Arc { centre, radius, start, sweep } => {
            ("arc", numbers(&[centre.x, centre.y, *radius, *start, *sweep]))
        }
        Stroke::Path(positions) => ("path", positions.iter().map(position).collect()),
    }])
}

fn position(position: &Position) -> Json {
    [position.x, position.y].into_iter().map(Json::from).collect()
}

fn highlighted(highlight: &Highlight, view: &Bounds) -> Json {
    let drawing = highlight.drawing();
    let curves = highlight.curves().into_iter();
    let strokes = curves.filter_map(|curve| shown(drawing, curve, view));
    Json::Object(vec![
        ("curves", strokes.map(|one| stroke(&one)).collect()),
        ("points", highlight.points().iter().map(position).collect()),
        ("text", highlight.words().into()),
    ])
}

fn radio(air: &Air, tally: &WallTally) -> Json {
    let Settings { loss, repeats, reordering } = air.settings;
    let Counts { sent, lost, repeated, overtaken } = air.counts;
    Json::Object(vec![
        ("loss", u32::from(loss).into()),
        ("repeats", u32::from(repeats).into()),
        ("reordering", u32::from(reordering).into()),
        ("on_the_air", air.flying().into()),
        ("sent", sent.into()),
        ("lost", lost.into()),
        ("repeated", repeated.into()),
        ("overtaken", overtaken.into()),
        ("missed", tally.missed.into()),
    ])
}

fn tally(tally: &WallTally) -> Json {
    let WallTally { applied, old, ahead, foreign, started_again, .. } = *tally;
    Json::Object(vec![
        ("applied", applied.into()),
        ("old", old.into()),
        ("ahead", ahead.into()),
        ("foreign", foreign.into()),
        ("started_again", started_again.into()),
    ])
}
