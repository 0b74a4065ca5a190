//! One panel: an axis of sizes, an axis of time, and two lines for each call, ours and the second program's.

pub const WIDTH: usize = 480;
pub const HEIGHT: usize = 400;

/// Where the axes run: left, right, top, bottom.
const LEFT: f64 = 62.0;
const RIGHT: f64 = 410.0;
const TOP: f64 = 46.0;
const BOTTOM: f64 = 345.0;

/// Told apart also without colour: the lines of a panel are labelled at their ends.
const COLOURS: [&str; 3] = ["#1f5fa8", "#b3541e", "#2e7d32"];

struct Curve {
    call: String,
    /// Size; ns of ours and of the second program.
    points: Vec<(f64, [f64; 2])>,
}

pub struct Panel {
    unit: String,
    curves: Vec<Curve>,
}

/// The numbers at an axis: from 0 in steps of 1, 2 or 5 times a power of ten, as far as it goes.
struct Axis {
    step: f64,
    end: f64,
}

impl Axis {
    fn up_to(most: f64) -> Axis {
        let power = 10f64.powf((most / 5.0).log10().floor());
        let step = [1.0, 2.0, 5.0, 10.0].map(|times| times * power).into_iter().find(|step| step * 6.0 >= most);
        Axis { step: step.expect("ten times the power is enough"), end: most }
    }

    /// As far as the next number past the most.
    fn rounded(self) -> Axis {
        Axis { end: (self.end / self.step).ceil() * self.step, ..self }
    }

    fn ticks(&self) -> impl Iterator<Item = f64> + '_ {
        (0..=(self.end / self.step) as usize).map(|tick| tick as f64 * self.step)
    }
}

impl Panel {
    pub fn new(unit: &str) -> Panel {
        Panel { unit: unit.to_string(), curves: Vec::new() }
    }

    pub fn point(&mut self, call: &str, size: f64, ns: [f64; 2]) {
        if !self.curves.iter().any(|curve| curve.call == call) {
            self.curves.push(Curve { call: call.to_string(), points: Vec::new() });
        }
        let curve = self.curves.iter_mut().find(|curve| curve.call == call).expect("it is there now");
        curve.points.push((size, ns));
    }

    pub fn drawn(&self) -> String {
        let points = || self.curves.iter().flat_map(|curve| &curve.points);
        let sizes = Axis::up_to(points().map(|(size, _)| *size).fold(1.0, f64::max));
        let times = Axis::up_to(points().flat_map(|(_, ns)| *ns).fold(1.0, f64::max)).rounded();
        let across = |size: f64| LEFT + size / sizes.end * (RIGHT - LEFT);
        let up = |ns: f64| BOTTOM - ns / times.end * (BOTTOM - TOP);
        let mut drawn = self.axes(&sizes, &times, &across, &up);
        let mut free = f64::MAX;
        for (curve, colour) in self.by_height().into_iter().rev().zip(COLOURS) {
            drawn += &curve.drawn(colour, &across, &up);
            // Labels stand at the lines' ends, the lowest first, each at least a line of text above the one before.
            let (size, [ours, second]) = *curve.points.last().expect("a curve has a point");
            let at = up((ours + second) / 2.0).min(free - 16.0);
            free = at;
            let (across, at, call) = (across(size) + 8.0, at + 4.0, &curve.call);
            drawn += &format!("<text x=\"{across:.1}\" y=\"{at:.1}\" fill=\"{colour}\">{call}</text>\n");
        }
        drawn
    }

    /// The curves, that which ends highest first.
    fn by_height(&self) -> Vec<&Curve> {
        let end = |curve: &&Curve| curve.points.last().map_or(0.0, |(_, [ours, second])| -(ours + second));
        let mut curves: Vec<&Curve> = self.curves.iter().collect();
        curves.sort_by(|one, other| end(one).total_cmp(&end(other)));
        curves
    }

    fn axes(&self, sizes: &Axis, times: &Axis, across: &dyn Fn(f64) -> f64, up: &dyn Fn(f64) -> f64) -> String {
        let title = match &self.unit[..] {
            "bytes" => "by the length of the text",
            _ => "by the used slots of the board",
        };
        let mut drawn = format!("<text x=\"{LEFT}\" y=\"20\" font-weight=\"bold\">ns a call, {title}</text>\n");
        drawn += &format!("<text x=\"{LEFT}\" y=\"37\">solid: proved; dashed: second program</text>\n");
        for ns in times.ticks() {
            let y = up(ns);
            drawn += &format!("<path d=\"M{LEFT} {y:.1}H{RIGHT}\" stroke=\"#dddddd\"/>\n");
            drawn += &format!("<text x=\"{}\" y=\"{:.1}\" text-anchor=\"end\">{ns}</text>\n", LEFT - 6.0, y + 4.0);
        }
        for size in sizes.ticks() {
            let (x, below) = (across(size), BOTTOM + 18.0);
            drawn += &format!("<path d=\"M{x:.1} {BOTTOM}v4\" stroke=\"black\"/>\n");
            drawn += &format!("<text x=\"{x:.1}\" y=\"{below}\" text-anchor=\"middle\">{size}</text>\n");
        }
        let (middle, below) = ((LEFT + RIGHT) / 2.0, BOTTOM + 38.0);
        drawn += &format!("<path d=\"M{LEFT} {TOP}V{BOTTOM}H{RIGHT}\" fill=\"none\" stroke=\"black\"/>\n");
        drawn + &format!("<text x=\"{middle}\" y=\"{below}\" text-anchor=\"middle\">{}</text>\n", self.unit)
    }
}

impl Curve {
    fn drawn(&self, colour: &str, across: &dyn Fn(f64) -> f64, up: &dyn Fn(f64) -> f64) -> String {
        let line = |program: usize| {
            let points = self.points.iter().map(|(size, ns)| format!("{:.1},{:.1}", across(*size), up(ns[program])));
            points.collect::<Vec<_>>().join(" ")
        };
        let style = format!("fill=\"none\" stroke=\"{colour}\" stroke-width=\"2\"");
        let ours = format!("<polyline points=\"{}\" {style}/>\n", line(0));
        ours + &format!("<polyline points=\"{}\" {style} stroke-dasharray=\"6 4\"/>\n", line(1))
    }
}
