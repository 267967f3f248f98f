//! Where the arrows of a graph run in a picture, and where their labels stand.

use super::graph::{Arrow, Graph};
use super::placed::{wrapped, Area, LINE};

/// A point.
type Point = (f64, f64);

/// An arrow: a quadratic curve, or a cubic one for an arrow to its own state.
pub struct Route {
    pub path: String,
    pub label: Vec<String>,
    pub at: Area,
}

/// How far curves may bend, straight ones first.
const BENDS: [f64; 9] = [0.0, 40.0, -40.0, 80.0, -80.0, 130.0, -130.0, 190.0, -190.0];

/// Where on a curve its label may be, the best place first.
const SPOTS: [f64; 9] = [0.5, 0.4, 0.6, 0.32, 0.68, 0.25, 0.75, 0.18, 0.82];

/// A quadratic curve.
#[derive(Clone, Copy)]
struct Curve {
    from: Point,
    bend: Point,
    to: Point,
}

impl Curve {
    fn between(from: &Area, to: &Area, bend: f64) -> Curve {
        let (across, down) = (to.x - from.x, to.y - from.y);
        let length = across.hypot(down).max(1.0);
        let middle = ((from.x + to.x) / 2.0, (from.y + to.y) / 2.0);
        // Twice as far, since a curve goes only half the way to its bend.
        let aside = 2.0 * bend / length;
        Curve {
            from: (from.x, from.y),
            bend: (middle.0 + down * aside, middle.1 - across * aside),
            to: (to.x, to.y),
        }
    }

    /// The blend of two parameters (the curve's blossom). If both are t, it is the
    /// curve's point at t.
    fn blend(&self, s: f64, t: f64) -> Point {
        let weights = ((1.0 - s) * (1.0 - t), (1.0 - s) * t + s * (1.0 - t), s * t);
        let mix = |a: f64, b: f64, c: f64| weights.0 * a + weights.1 * b + weights.2 * c;
        (
            mix(self.from.0, self.bend.0, self.to.0),
            mix(self.from.1, self.bend.1, self.to.1),
        )
    }

    fn points(&self) -> impl Iterator<Item = (f64, Point)> + '_ {
        (0..=60)
            .map(|part| f64::from(part) / 60.0)
            .map(|t| (t, self.blend(t, t)))
    }

    /// The part between two boxes.
    fn cut(&self, from: &Area, to: &Area) -> Curve {
        let mut outside = self
            .points()
            .filter(|(_, point)| !from.holds(*point, 1.0) && !to.holds(*point, 5.0));
        let first = outside.next().map_or(0.0, |(t, _)| t);
        let last = outside.last().map_or(1.0, |(t, _)| t);
        Curve {
            from: self.blend(first, first),
            bend: self.blend(first, last),
            to: self.blend(last, last),
        }
    }

    fn path(&self) -> String {
        let [a, b, c] = [self.from, self.bend, self.to];
        format!(
            "M{:.1} {:.1} Q{:.1} {:.1} {:.1} {:.1}",
            a.0, a.1, b.0, b.1, c.0, c.1
        )
    }
}

/// The routes that are laid so far.
struct Laid<'a> {
    areas: &'a [Area],
    size: Point,
    labels: Vec<Area>,
    curves: Vec<Curve>,
}

impl Laid<'_> {
    /// How bad a curve is. It is worse through states or labels, near other curves,
    /// or outside the picture.
    fn cost(&self, curve: &Curve, arrow: &Arrow) -> usize {
        let others = || {
            let all = self.areas.iter().enumerate();
            all.filter(|(node, _)| *node != arrow.from && *node != arrow.to)
                .map(|(_, area)| area)
        };
        let cost = |(_, point): (f64, Point)| {
            let through = others().filter(|area| area.holds(point, 8.0)).count();
            let over = self
                .labels
                .iter()
                .filter(|area| area.holds(point, 2.0))
                .count();
            let outside = point.0 < 8.0
                || point.1 < 8.0
                || point.0 > self.size.0
                || point.1 > self.size.1 - 8.0;
            8 * through + 2 * over + 8 * usize::from(outside)
        };
        let near = |other: &Curve| {
            let (one, other) = (curve.blend(0.5, 0.5), other.blend(0.5, 0.5));
            (one.0 - other.0).hypot(one.1 - other.1) < 18.0
        };
        let crowded = self.curves.iter().filter(|other| near(other)).count();
        curve.points().map(cost).sum::<usize>() + 12 * crowded
    }

    /// The first of these places where a label covers nothing.
    fn label(&mut self, lines: &[String], places: impl Iterator<Item = Point>) -> Area {
        let all: Vec<Area> = places.map(|place| Area::of_lines(lines, place)).collect();
        let is_free = |area: &&Area| {
            let mut taken = self.areas.iter().chain(&self.labels);
            !taken.any(|other| other.meets(area))
        };
        let found = *all.iter().find(is_free).unwrap_or(&all[0]);
        self.labels.push(found);
        found
    }

    /// An arrow from a state to itself, above its box.
    fn own(&mut self, arrow: &Arrow) -> Route {
        let area = self.areas[arrow.from];
        let (x, top) = (area.x, area.top());
        let path = format!(
            "M{:.1} {top:.1} C{:.1} {:.1} {:.1} {:.1} {:.1} {:.1}",
            x - 10.0,
            x - 26.0,
            top - 34.0,
            x + 26.0,
            top - 34.0,
            x + 10.0,
            top - 4.0
        );
        let label = wrapped(&arrow.label);
        let above = top - 28.0 - label.len() as f64 * LINE / 2.0;
        let at = self.label(&label, [(x, above)].into_iter());
        Route { path, label, at }
    }

    /// An arrow between two states, where it runs best.
    fn between(&mut self, arrow: &Arrow) -> Route {
        let (from, to) = (self.areas[arrow.from], self.areas[arrow.to]);
        let curves = BENDS.map(|bend| Curve::between(&from, &to, bend).cut(&from, &to));
        let best = curves.iter().min_by_key(|curve| self.cost(curve, arrow));
        let curve = *best.unwrap_or(&curves[0]);
        self.curves.push(curve);
        let label = wrapped(&arrow.label);
        let at = self.label(&label, SPOTS.iter().map(|&spot| curve.blend(spot, spot)));
        let path = curve.path();
        Route { path, label, at }
    }
}

/// The routes of all arrows.
pub fn routes(graph: &Graph, areas: &[Area], size: Point) -> Vec<Route> {
    let mut laid = Laid {
        areas,
        size,
        labels: Vec::new(),
        curves: Vec::new(),
    };
    let is_own = |arrow: &&Arrow| arrow.from == arrow.to;
    let own: Vec<Route> = graph
        .arrows
        .iter()
        .filter(is_own)
        .map(|arrow| laid.own(arrow))
        .collect();
    let others = graph.arrows.iter().filter(|arrow| arrow.from != arrow.to);
    let others: Vec<Route> = others.map(|arrow| laid.between(arrow)).collect();
    own.into_iter().chain(others).collect()
}
