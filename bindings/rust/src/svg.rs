//! Pictures of drawings as SVG.
//!
//! ```
//! use mulkefi::svg::Sheet;
//! use mulkefi::{Drawing, Kind};
//!
//! let mut drawing = Drawing::new();
//! let c = drawing.add_point(0.0, 0.0);
//! drawing.add_curve(Kind::Circle { c, radius: 1.0 });
//! assert!(Sheet::of(&drawing).contains("<circle"));
//! ```

use crate::drawing::{Curve, Drawing, Id, Kind};
use crate::position::{Bounds, Position};
use crate::relation::Relation;
use crate::stroke::Stroke;
use std::fmt::Write;

/// A page that panels are put on.
pub struct Sheet {
    width: f64,
    height: f64,
    panels: usize,
    has_ids: bool,
    body: String,
}

const STYLE: &str = "\
.panel{fill:#fbfaf6;stroke:#c9c4b4}
path,circle{fill:none;stroke:#22303c;stroke-width:1.6;stroke-linecap:round}
.round{stroke:#a5521d;stroke-width:2.2}
.freeform{stroke:#1c6b8c;stroke-width:2.8}
.construction{stroke:#8fa3b0;stroke-width:1}
.centerline{stroke-dasharray:9 3 2 3}
.away{stroke:#c2352b;stroke-width:1.5;stroke-dasharray:4 3;stroke-linecap:butt}
.point{fill:#22303c;stroke:none}
.highlight{stroke:#d6249f;stroke-width:5;stroke-opacity:.7}
.highlight-point{fill:#d6249f;stroke:none}
text{font-family:sans-serif;font-size:13px;fill:#22303c}
";

/// Of ids, in a sheet that has them.
const ID_STYLE: &str = "\
text.point-id{font-size:10px;fill:#5b6770}
text.curve-id{font-size:11px;font-weight:bold;fill:#1f7a3a}
";

/// How far an id is put to the right of what it labels, and above it.
const ID_OFFSET: f64 = 4.0;

impl Sheet {
    /// An empty page of so many units of SVG, which are pixels by default.
    pub fn new(width: f64, height: f64) -> Sheet {
        Sheet { width, height, panels: 0, has_ids: false, body: String::new() }
    }

    /// A picture of one drawing, with its points.
    pub fn of(drawing: &Drawing) -> String {
        Sheet::of_one(drawing, None, false)
    }

    /// A picture of one drawing, with its points, in which one of its relations is highlighted.
    ///
    /// ```
    /// use mulkefi::svg::Sheet;
    /// use mulkefi::{Drawing, Kind, Relation};
    ///
    /// let mut drawing = Drawing::new();
    /// let [a, b, p] = [(0.0, 0.0), (4.0, 0.0), (1.0, 1.0)].map(|(x, y)| drawing.add_point(x, y));
    /// let line = drawing.add_curve(Kind::Line { a, b });
    /// let picture = Sheet::with_relation(&drawing, &Relation::Midpoint { p, line });
    /// assert_eq!(picture.matches("class=\"highlight\"").count(), 1);
    /// assert_eq!(picture.matches("class=\"highlight-point\"").count(), 1);
    /// ```
    pub fn with_relation(drawing: &Drawing, relation: &Relation) -> String {
        Sheet::of_one(drawing, Some(relation), false)
    }

    /// A picture of one drawing, with its points, in which points and curves have their ids beside them;
    /// a relation may be highlighted.
    ///
    /// ```
    /// use mulkefi::svg::Sheet;
    /// use mulkefi::{Drawing, Kind};
    ///
    /// let mut drawing = Drawing::new();
    /// let (a, b) = (drawing.add_point(0.0, 0.0), drawing.add_point(4.0, 0.0));
    /// drawing.add_curve(Kind::Line { a, b });
    /// let picture = Sheet::with_ids(&drawing, None);
    /// assert!([">1</text>", ">2</text>", ">3</text>"].iter().all(|id| picture.contains(id)));
    /// ```
    pub fn with_ids(drawing: &Drawing, relation: Option<&Relation>) -> String {
        Sheet::of_one(drawing, relation, true)
    }

    fn of_one(drawing: &Drawing, highlighted: Option<&Relation>, ids: bool) -> String {
        let mut sheet = Sheet::new(800.0, 600.0);
        let area = Bounds { low: Position::new(10.0, 10.0), high: Position::new(790.0, 590.0) };
        let mut panel = sheet.panel(area, view(drawing));
        panel.drawing(drawing);
        panel.points(drawing);
        if let Some(relation) = highlighted {
            panel.highlight_relation(drawing, relation);
        }
        if ids {
            panel.ids(drawing);
        }
        sheet.finish()
    }

    /// A frame on the sheet that shows so much of the plane.
    pub fn panel(&mut self, area: Bounds, view: Bounds) -> Panel<'_> {
        let Bounds { low, .. } = area;
        let (width, height) = (area.width(), area.height());
        self.panels += 1;
        let clip = self.panels;
        let frame = format!(
            "x=\"{:.1}\" y=\"{:.1}\" width=\"{width:.1}\" height=\"{height:.1}\"",
            low.x, low.y
        );
        self.line(&format!("<clipPath id=\"c{clip}\"><rect {frame}/></clipPath>"));
        self.line(&format!("<rect class=\"panel\" {frame}/>"));
        let scale = (width / view.width()).min(height / view.height());
        Panel { sheet: self, area, view, scale, clip }
    }

    /// A line of text that begins at a place of the page.
    pub fn text(&mut self, at: Position, text: &str) {
        let text = text.replace('&', "&amp;").replace('<', "&lt;");
        self.line(&format!("<text x=\"{:.1}\" y=\"{:.1}\">{text}</text>", at.x, at.y));
    }

    fn line(&mut self, line: &str) {
        self.body.push_str(line);
        self.body.push('\n');
    }

    /// The text of the file.
    pub fn finish(self) -> String {
        let Sheet { width, height, has_ids, body, .. } = self;
        let id_style = if has_ids { ID_STYLE } else { "" };
        let mut svg = String::new();
        let size =
            format!("width=\"{width}\" height=\"{height}\" viewBox=\"0 0 {width} {height}\"");
        let _ = writeln!(svg, "<svg xmlns=\"http://www.w3.org/2000/svg\" {size}>");
        let _ = writeln!(svg, "<style>\n{STYLE}{id_style}</style>");
        let _ = writeln!(svg, "<rect width=\"100%\" height=\"100%\" fill=\"#ffffff\"/>");
        svg + &body + "</svg>\n"
    }
}

/// So much of the plane that all of a drawing is seen.
pub fn view(drawing: &Drawing) -> Bounds {
    let strokes = drawing.curves.iter().filter_map(|curve| Stroke::of(drawing, curve));
    let lone = drawing.points.iter().map(|point| Position::new(point.x, point.y));
    let positions = strokes.flat_map(|stroke| stroke.positions()).chain(lone);
    let origin = Position::new(0.0, 0.0);
    let bounds = Bounds::of(positions).unwrap_or(Bounds { low: origin, high: origin });
    // Room about it, and some for a drawing without any extent.
    let size = bounds.width().max(bounds.height());
    bounds.grown(if size > 0.0 { 0.05 * size } else { 1.0 })
}

/// A frame with its part of the plane in the middle.
pub struct Panel<'s> {
    sheet: &'s mut Sheet,
    area: Bounds,
    view: Bounds,
    scale: f64,
    clip: usize,
}

impl Panel<'_> {
    /// All curves of a drawing.
    pub fn drawing(&mut self, drawing: &Drawing) {
        drawing.curves.iter().for_each(|curve| self.curve(drawing, curve, &class(curve)));
    }

    /// A dot for every point.
    pub fn points(&mut self, drawing: &Drawing) {
        for point in &drawing.points {
            let at = self.map(Position::new(point.x, point.y));
            let radius = if point.fixed { 4.0 } else { 2.5 };
            self.circle(at, radius, "point");
        }
    }

    /// The ids of a drawing's points, each beside its dot, and of its curves, each by its middle.
    pub fn ids(&mut self, drawing: &Drawing) {
        self.sheet.has_ids = true;
        for curve in &drawing.curves {
            let middle = Stroke::of(drawing, curve).and_then(|stroke| stroke.middle());
            if let Some(middle) = middle {
                self.id(middle, curve.id, "curve-id");
            }
        }
        for point in &drawing.points {
            self.id(Position::new(point.x, point.y), point.id, "point-id");
        }
    }

    fn id(&mut self, beside: Position, id: Id, class: &str) {
        let at = self.map(beside);
        let (x, y) = (at.x + ID_OFFSET, at.y - ID_OFFSET);
        self.sheet.line(&format!("<text class=\"{class}\" x=\"{x:.2}\" y=\"{y:.2}\">{id}</text>"));
    }

    /// A piece that was cut away, dashed.
    pub fn cut_away(&mut self, stroke: &Stroke) {
        self.stroke(stroke, "away");
    }

    /// The curves and points that a relation names, over what is drawn already. Those that are not in
    /// the drawing are passed over.
    pub fn highlight_relation(&mut self, drawing: &Drawing, relation: &Relation) {
        relation.curves().into_iter().for_each(|curve| self.highlight_curve(drawing, curve));
        let points = relation.points();
        for point in points.into_iter().filter_map(|id| drawing.point(id)) {
            let at = self.map(Position::new(point.x, point.y));
            self.circle(at, 5.0, "highlight-point");
        }
    }

    /// A curve, over what is drawn already, or nothing where it is not in the drawing.
    pub fn highlight_curve(&mut self, drawing: &Drawing, curve: Id) {
        if let Some(curve) = drawing.curve(curve) {
            self.curve(drawing, curve, "highlight");
        }
    }

    /// An infinite line is drawn over the panel's edges.
    fn curve(&mut self, drawing: &Drawing, curve: &Curve, class: &str) {
        if let Some(stroke) = Stroke::of(drawing, curve) {
            let stroke = if curve.infinite { stroke.endless(&self.view) } else { stroke };
            self.stroke(&stroke, class);
        }
    }

    fn stroke(&mut self, stroke: &Stroke, class: &str) {
        if let Stroke::Circle { centre, radius } = stroke {
            return self.circle(self.map(*centre), radius * self.scale, class);
        }
        let data = stroke.path_data(|position| self.map(position), self.scale);
        let clip = self.clip;
        let line = format!("<path class=\"{class}\" clip-path=\"url(#c{clip})\" d=\"{data}\"/>");
        self.sheet.line(&line);
    }

    fn circle(&mut self, at: Position, radius: f64, class: &str) {
        let attributes = format!("cx=\"{:.2}\" cy=\"{:.2}\" r=\"{radius:.2}\"", at.x, at.y);
        let clip = self.clip;
        self.sheet
            .line(&format!("<circle class=\"{class}\" clip-path=\"url(#c{clip})\" {attributes}/>"));
    }

    /// Where a position of the plane lies on the sheet.
    fn map(&self, position: Position) -> Position {
        let (area, view) = (self.area, self.view);
        let spare_x = area.width() - view.width() * self.scale;
        let spare_y = area.height() - view.height() * self.scale;
        Position::new(
            area.low.x + spare_x / 2.0 + (position.x - view.low.x) * self.scale,
            area.low.y + spare_y / 2.0 + (view.high.y - position.y) * self.scale,
        )
    }
}

fn class(curve: &Curve) -> String {
    let kind = match curve.kind {
        Kind::Line { .. } => "line",
        Kind::Arc { .. } | Kind::Circle { .. } => "round",
        Kind::Bezier { .. } | Kind::Conic { .. } => "freeform",
    };
    let flags = [(curve.construction, " construction"), (curve.centerline, " centerline")];
    let set = flags.iter().filter(|(set, _)| *set);
    set.fold(kind.to_string(), |class, (_, name)| class + name)
}
