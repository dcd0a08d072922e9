//! A plot of time against length, both by powers of two, as an SVG.

use std::fmt::Write;

pub struct Line {
    pub label: &'static str,
    pub colour: &'static str,
    /// Length in bytes, time in nanoseconds.
    pub points: Vec<(f64, f64)>,
}

const WIDTH: f64 = 720.0;
const HEIGHT: f64 = 420.0;
const LEFT: f64 = 80.0;
const RIGHT: f64 = 190.0;
const TOP: f64 = 40.0;
const BOTTOM: f64 = 50.0;

struct Scale {
    low: f64,
    high: f64,
    from: f64,
    to: f64,
}

impl Scale {
    /// From the power of two below the least to the one above the greatest.
    fn over(values: impl Iterator<Item = f64> + Clone, from: f64, to: f64) -> Scale {
        let low = values.clone().fold(f64::INFINITY, f64::min).log2().floor();
        let high = values.fold(0.0, f64::max).log2().ceil();
        Scale { low, high, from, to }
    }

    fn at(&self, value: f64) -> f64 {
        self.from + (self.to - self.from) * (value.log2() - self.low) / (self.high - self.low)
    }

    fn powers(&self) -> impl Iterator<Item = f64> + use<> {
        (self.low as i32..=self.high as i32).map(|power| 2f64.powi(power))
    }
}

fn bytes(value: f64) -> String {
    if value >= 1024.0 { format!("{} KiB", value / 1024.0) } else { format!("{value} B") }
}

fn time(value: f64) -> String {
    if value >= 1_048_576.0 {
        format!("{:.0} ms", value / 1e6)
    } else if value >= 1024.0 {
        format!("{:.0} µs", value / 1e3)
    } else {
        format!("{value:.0} ns")
    }
}

pub fn svg(title: &str, lines: &[Line]) -> String {
    let points = || lines.iter().flat_map(|line| line.points.iter().copied());
    let x = Scale::over(points().map(|p| p.0), LEFT, WIDTH - RIGHT);
    let y = Scale::over(points().map(|p| p.1), HEIGHT - BOTTOM, TOP);
    let mut s = format!(
        "<svg xmlns=\"http://www.w3.org/2000/svg\" width=\"{WIDTH}\" height=\"{HEIGHT}\" font-family=\"sans-serif\" font-size=\"12\">\n\
         <rect width=\"100%\" height=\"100%\" fill=\"white\"/>\n<text x=\"{LEFT}\" y=\"22\" font-size=\"15\">{title}</text>\n"
    );
    for value in x.powers() {
        let at = x.at(value);
        let (top, bottom) = (TOP, HEIGHT - BOTTOM);
        writeln!(s, "<line x1=\"{at:.1}\" y1=\"{top}\" x2=\"{at:.1}\" y2=\"{bottom}\" stroke=\"#ddd\"/>").unwrap();
        if (value.log2() as i32) % 2 == 0 {
            writeln!(s, "<text x=\"{at:.1}\" y=\"{}\" text-anchor=\"middle\">{}</text>", bottom + 18.0, bytes(value))
                .unwrap();
        }
    }
    for value in y.powers() {
        let at = y.at(value);
        let (left, right) = (LEFT, WIDTH - RIGHT);
        writeln!(s, "<line x1=\"{left}\" y1=\"{at:.1}\" x2=\"{right}\" y2=\"{at:.1}\" stroke=\"#ddd\"/>").unwrap();
        if (value.log2() as i32) % 2 == 0 {
            writeln!(s, "<text x=\"{}\" y=\"{:.1}\" text-anchor=\"end\">{}</text>", left - 8.0, at + 4.0, time(value))
                .unwrap();
        }
    }
    for line in lines {
        let path: Vec<String> = line.points.iter().map(|p| format!("{:.1},{:.1}", x.at(p.0), y.at(p.1))).collect();
        let colour = line.colour;
        writeln!(s, "<polyline points=\"{}\" fill=\"none\" stroke=\"{colour}\" stroke-width=\"2\"/>", path.join(" "))
            .unwrap();
        for p in &line.points {
            writeln!(s, "<circle cx=\"{:.1}\" cy=\"{:.1}\" r=\"3\" fill=\"{colour}\"/>", x.at(p.0), y.at(p.1)).unwrap();
        }
    }
    // Labels at the lines' ends, from the top, none over another.
    let mut labels: Vec<(f64, &Line)> =
        lines.iter().map(|line| (y.at(line.points.last().expect("a point").1), line)).collect();
    labels.sort_by(|a, b| a.0.total_cmp(&b.0));
    let mut least = 0.0;
    for (at, line) in labels {
        let at = f64::max(at, least);
        least = at + 16.0;
        let (right, colour, label) = (WIDTH - RIGHT + 8.0, line.colour, line.label);
        writeln!(s, "<text x=\"{right}\" y=\"{:.1}\" fill=\"{colour}\">{label}</text>", at + 4.0).unwrap();
    }
    s + "</svg>\n"
}
