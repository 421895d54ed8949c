//! A log-log plot as SVG.

pub struct Line {
    pub name: String,
    pub points: Vec<(f64, f64)>,
}

pub struct Panel {
    pub title: String,
    pub lines: Vec<Line>,
}

const WIDTH: f64 = 340.0;
const HEIGHT: f64 = 300.0;
const COLOURS: [&str; 4] = ["#1b6ca8", "#c0392b", "#2e8b57", "#8e6bbf"];

/// The slope of a line on log-log paper, by least squares.
pub fn slope(points: &[(f64, f64)]) -> f64 {
    let logs: Vec<(f64, f64)> = points.iter().map(|(x, y)| (x.ln(), y.ln())).collect();
    let count = logs.len() as f64;
    let (sx, sy) = logs.iter().fold((0.0, 0.0), |s, p| (s.0 + p.0 / count, s.1 + p.1 / count));
    let (above, below) =
        logs.iter().fold((0.0, 0.0), |s, p| (s.0 + (p.0 - sx) * (p.1 - sy), s.1 + (p.0 - sx) * (p.0 - sx)));
    above / below
}

pub fn svg(panels: &[Panel]) -> String {
    let mut s = format!(
        "<svg xmlns=\"http://www.w3.org/2000/svg\" width=\"{}\" height=\"{}\" font-family=\"sans-serif\" font-size=\"11\">\n\
         <rect width=\"100%\" height=\"100%\" fill=\"white\"/>\n",
        WIDTH * panels.len() as f64,
        HEIGHT + 20.0 + 16.0 * 4.0
    );
    for (index, panel) in panels.iter().enumerate() {
        s += &format!("<g transform=\"translate({},0)\">\n{}</g>\n", WIDTH * index as f64, draw(panel));
    }
    s + "</svg>\n"
}

fn draw(panel: &Panel) -> String {
    let points = || panel.lines.iter().flat_map(|line| line.points.iter());
    let range = |f: fn(&(f64, f64)) -> f64| {
        let low = points().map(f).fold(f64::MAX, f64::min);
        let high = points().map(f).fold(f64::MIN, f64::max);
        (low.log10(), high.log10())
    };
    let (x0, x1) = range(|p| p.0);
    let (y0, y1) = range(|p| p.1);
    let (y0, y1) = (y0.floor(), y1.ceil());
    let x = |v: f64| 50.0 + (v.log10() - x0) / (x1 - x0) * (WIDTH - 70.0);
    let y = |v: f64| HEIGHT - 25.0 - (v.log10() - y0) / (y1 - y0) * (HEIGHT - 55.0);
    let mut s = format!("<text x=\"50\" y=\"18\" font-weight=\"bold\">{}</text>\n", panel.title);
    for power in y0 as i32..=y1 as i32 {
        let v = 10f64.powi(power);
        s += &format!(
            "<line x1=\"50\" x2=\"{}\" y1=\"{1:.1}\" y2=\"{1:.1}\" stroke=\"#ddd\"/><text x=\"44\" y=\"{2:.1}\" text-anchor=\"end\">{v}</text>\n",
            WIDTH - 20.0,
            y(v),
            y(v) + 4.0
        );
    }
    for &(v, _) in &panel.lines[0].points {
        s += &format!(
            "<line x1=\"{0:.1}\" x2=\"{0:.1}\" y1=\"30\" y2=\"{1}\" stroke=\"#ddd\"/><text x=\"{0:.1}\" y=\"{2}\" text-anchor=\"middle\">{v}</text>\n",
            x(v),
            HEIGHT - 25.0,
            HEIGHT - 10.0
        );
    }
    for (line, colour) in panel.lines.iter().zip(COLOURS) {
        let path: Vec<String> = line.points.iter().map(|&(a, b)| format!("{:.1},{:.1}", x(a), y(b))).collect();
        s += &format!(
            "<polyline points=\"{}\" fill=\"none\" stroke=\"{colour}\" stroke-width=\"2\"/>\n",
            path.join(" ")
        );
    }
    for (index, (line, colour)) in panel.lines.iter().zip(COLOURS).enumerate() {
        let at = HEIGHT + 8.0 + 16.0 * index as f64;
        s += &format!(
            "<line x1=\"50\" x2=\"70\" y1=\"{at}\" y2=\"{at}\" stroke=\"{colour}\" stroke-width=\"2\"/><text x=\"76\" y=\"{}\">{}: slope {:.2}</text>\n",
            at + 4.0,
            line.name,
            slope(&line.points)
        );
    }
    s
}
