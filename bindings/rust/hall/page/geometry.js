// Positions and strokes in the plane. A position is [x, y]; a stroke is as the server tells it:
// {circle: [x, y, radius]}, {arc: [x, y, radius, start, sweep]}, counter-clockwise, or {path: [position, …]}.

export const TURN = 2 * Math.PI;

export function distance([ax, ay], [bx, by]) {
  return Math.hypot(bx - ax, by - ay);
}

/** How far a position lies from a stroke. */
export function strokeDistance(stroke, position) {
  if (stroke.circle) {
    const [x, y, radius] = stroke.circle;
    return Math.abs(distance([x, y], position) - radius);
  }
  return stroke.arc ? arcDistance(stroke.arc, position) : pathDistance(stroke.path, position);
}

function arcDistance([x, y, radius, start, sweep], position) {
  const angle = Math.atan2(position[1] - y, position[0] - x);
  if (turnBetween(start, angle) <= sweep) {
    return Math.abs(distance([x, y], position) - radius);
  }
  const end = (at) => [x + radius * Math.cos(at), y + radius * Math.sin(at)];
  return Math.min(distance(end(start), position), distance(end(start + sweep), position));
}

function pathDistance(path, position) {
  const steps = path.slice(1).map((to, i) => segmentDistance(path[i], to, position));
  return Math.min(...steps, path.length === 1 ? distance(path[0], position) : Infinity);
}

function segmentDistance(a, b, [x, y]) {
  const along = [b[0] - a[0], b[1] - a[1]];
  const square = along[0] ** 2 + along[1] ** 2;
  const share = square > 0 ? ((x - a[0]) * along[0] + (y - a[1]) * along[1]) / square : 0;
  const t = Math.min(1, Math.max(0, share));
  return distance([a[0] + t * along[0], a[1] + t * along[1]], [x, y]);
}

/** The angle from one direction counter-clockwise to another, from 0 to below a turn. */
function turnBetween(from, to) {
  const turn = (to - from) % TURN;
  return turn < 0 ? turn + TURN : turn;
}

/** The one that measures least, if that is at most `within`; else null. */
function nearest(things, measure, within) {
  let best = null;
  let least = within;
  for (const thing of things) {
    const measured = measure(thing);
    if (measured <= least) {
      [best, least] = [thing, measured];
    }
  }
  return best;
}

export function nearestCurve(curves, position, within) {
  return nearest(curves, (curve) => strokeDistance(curve.stroke, position), within);
}

export function nearestPoint(points, position, within) {
  return nearest(points, (point) => distance([point.x, point.y], position), within);
}

/** Of a path's positions the one that lies farthest from the chord between two others. */
export function farthestFromChord(path, from, to) {
  const off = (position) => Math.abs(cross(from, to, position));
  return path.reduce((best, position) => (off(position) > off(best) ? position : best), path[0]);
}

/** Twice the area of a triangle, above 0 where it goes round counter-clockwise. */
function cross(a, b, c) {
  return (b[0] - a[0]) * (c[1] - a[1]) - (b[1] - a[1]) * (c[0] - a[0]);
}

/** The arc from one position to another through a third, or null where they lie on one line. */
export function arcThrough(from, to, through) {
  const area = 2 * cross(from, through, to);
  const chord = distance(from, to);
  // An arc that rises by less than a thousandth of its chord is a line to the eye.
  if (!(Math.abs(area) > 4e-3 * chord * chord)) {
    return null;
  }
  const [b, c] = [through, to].map((p) => [p[0] - from[0], p[1] - from[1]]);
  const [bb, cc] = [b, c].map((p) => p[0] ** 2 + p[1] ** 2);
  const centre = [
    from[0] + (c[1] * bb - b[1] * cc) / area,
    from[1] + (b[0] * cc - c[0] * bb) / area,
  ];
  const angle = (p) => Math.atan2(p[1] - centre[1], p[0] - centre[0]);
  const [first, last] = area > 0 ? [from, to] : [to, from];
  const sweep = turnBetween(angle(first), angle(last));
  return { arc: [...centre, distance(centre, from), angle(first), sweep] };
}
