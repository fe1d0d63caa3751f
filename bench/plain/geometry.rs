// Places, parts of paths and where they meet: docs/MODEL.md, Geometry.

#[derive(Clone, Copy, PartialEq, Eq, PartialOrd, Ord, Hash)]
pub struct Place {
    pub x: i64,
    pub y: i64,
}

pub type Part = (Place, Place);

#[derive(PartialEq, Eq)]
pub enum Meeting {
    Apart,
    Once,
    Overlap,
}

fn cross(from: Place, one: Place, other: Place) -> i64 {
    (one.x - from.x) * (other.y - from.y) - (one.y - from.y) * (other.x - from.x)
}

fn is_between(number: i64, one: i64, other: i64) -> bool {
    one.min(other) <= number && number <= one.max(other)
}

fn in_box(place: Place, part: Part) -> bool {
    is_between(place.x, part.0.x, part.1.x) && is_between(place.y, part.0.y, part.1.y)
}

fn boxes_touch(one: Part, other: Part) -> bool {
    one.0.x.min(one.1.x) <= other.0.x.max(other.1.x)
        && other.0.x.min(other.1.x) <= one.0.x.max(one.1.x)
        && one.0.y.min(one.1.y) <= other.0.y.max(other.1.y)
        && other.0.y.min(other.1.y) <= one.0.y.max(one.1.y)
}

pub fn lies_on(place: Place, part: Part) -> bool {
    in_box(place, part) && cross(part.0, part.1, place) == 0
}

pub fn is_near(one: Place, other: Place, distance: i64) -> bool {
    (one.x - other.x).pow(2) + (one.y - other.y).pow(2) < distance * distance
}

/// An end of one part that lies on the other, of parts on one line, and whether there are two such places.
fn common_end(one: Part, other: Part) -> (Option<Place>, bool) {
    let ends = [(one.0, other), (one.1, other), (other.0, one), (other.1, one)];
    let mut common = ends.into_iter().filter(|(end, part)| in_box(*end, *part)).map(|(end, _)| end);
    let first = common.next();
    (first, common.any(|end| Some(end) != first))
}

pub fn meet(one: Part, other: Part) -> Meeting {
    if !boxes_touch(one, other) {
        return Meeting::Apart;
    }
    let (first, second) = (cross(one.0, one.1, other.0).signum(), cross(one.0, one.1, other.1).signum());
    if first == 0 && second == 0 {
        return match common_end(one, other) {
            (None, _) => Meeting::Apart,
            (Some(_), false) => Meeting::Once,
            (Some(_), true) => Meeting::Overlap,
        };
    }
    let (third, fourth) = (cross(other.0, other.1, one.0).signum(), cross(other.0, other.1, one.1).signum());
    if first * second > 0 || third * fourth > 0 { Meeting::Apart } else { Meeting::Once }
}

/// The one common place of parts that meet once, if it is a whole one.
pub fn common_place(one: Part, other: Part) -> Option<Place> {
    let (u, v) = ((one.1.x - one.0.x, one.1.y - one.0.y), (other.1.x - other.0.x, other.1.y - other.0.y));
    let w = (other.0.x - one.0.x, other.0.y - one.0.y);
    let area = |a: (i64, i64), b: (i64, i64)| i128::from(a.0) * i128::from(b.1) - i128::from(a.1) * i128::from(b.0);
    let whole = area(u, v);
    if whole == 0 {
        return common_end(one, other).0;
    }
    let share = area(w, v);
    let along = |step: i64| (share * i128::from(step) % whole == 0).then(|| (share * i128::from(step) / whole) as i64);
    Some(Place { x: one.0.x + along(u.0)?, y: one.0.y + along(u.1)? })
}
