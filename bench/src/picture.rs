//! The picture of the figures: instructions per byte as bars, ours above plain, with a mark where the aim lies.

use std::fmt::Write;

const WIDTH: f64 = 860.0;
const LEFT: f64 = 150.0;
/// Room behind the longest bar for the words beside it.
const RIGHT: f64 = 190.0;
const TOP: f64 = 58.0;
const ROW: f64 = 54.0;
const BAR: f64 = 17.0;

/// The colours are those of the other pictures, for a light page and a dark one.
const STYLE: &str = "  <style>
    text { font: 14px sans-serif; fill: #1b1f24; }
    .name { text-anchor: end; }
    .number { font-size: 12px; }
    .ours { fill: #4c8fd1; }
    .plain { fill: #b4c0cc; }
    .aim { stroke: #1b1f24; stroke-width: 2.5; }
    @media (prefers-color-scheme: dark) {
      text { fill: #e6e9ed; }
      .ours { fill: #3a76b4; }
      .plain { fill: #5d6b78; }
      .aim { stroke: #e6e9ed; }
    }
  </style>
";

/// One row of the picture: what was measured, and the instructions per byte of both readers.
struct Figure {
    name: String,
    aim: f64,
    ours: f64,
    plain: f64,
}

/// How many times the plain reader's instructions ours may take.
const LINE_AIM: f64 = 1.0;
const STATION_AIM: f64 = 1.35;

fn aim_of(part: &str) -> Option<f64> {
    match part {
        "line" => Some(LINE_AIM),
        "station" => Some(STATION_AIM),
        _ => None,
    }
}

/// A figure as `bench/run` writes it: part, kind, ours, plain.
fn figure_of(row: &str) -> Option<Figure> {
    let words: Vec<&str> = row.split_whitespace().collect();
    let [part, kind, ours, plain, ..] = words[..] else {
        return None;
    };
    Some(Figure {
        name: format!("{part}, {kind}"),
        aim: aim_of(part)?,
        ours: ours.parse().ok()?,
        plain: plain.parse().ok()?,
    })
}

/// The picture of these rows; none where one can't be read.
pub fn of(rows: &str) -> Option<String> {
    let figures: Vec<Figure> = rows.lines().map(figure_of).collect::<Option<_>>()?;
    let longest = figures
        .iter()
        .map(|figure| figure.ours.max(figure.plain * figure.aim))
        .fold(1.0, f64::max);
    let scale = (WIDTH - LEFT - RIGHT) / longest;
    let height = TOP + ROW * figures.len() as f64;
    let mut picture = format!(
        "<svg xmlns=\"http://www.w3.org/2000/svg\" viewBox=\"0 0 {WIDTH} {height}\" role=\"img\" \
         aria-labelledby=\"title\">\n  \
         <title id=\"title\">Instructions per byte of the proved reader and of the plain one</title>\n{STYLE}"
    );
    picture.push_str(&legend());
    for (row, figure) in figures.iter().enumerate() {
        picture.push_str(&bars(figure, TOP + ROW * row as f64, scale));
    }
    picture.push_str("</svg>\n");
    Some(picture)
}

fn legend() -> String {
    format!(
        "  <text x=\"{LEFT}\" y=\"22\">Instructions per byte</text>\n  \
         <rect class=\"ours\" x=\"330\" y=\"10\" width=\"14\" height=\"14\"/>\n  \
         <text x=\"350\" y=\"22\">ours</text>\n  \
         <rect class=\"plain\" x=\"400\" y=\"10\" width=\"14\" height=\"14\"/>\n  \
         <text x=\"420\" y=\"22\">plain</text>\n  \
         <path class=\"aim\" d=\"M476 8 V26\"/>\n  \
         <text x=\"486\" y=\"22\">aim: {LINE_AIM} (line), {STATION_AIM} (station) times plain</text>\n"
    )
}

fn bars(figure: &Figure, top: f64, scale: f64) -> String {
    let (ours, plain) = (figure.ours * scale, figure.plain * scale);
    let aim = LEFT + plain * figure.aim;
    let mut text = String::new();
    // Writing to a string does not fail.
    let _ = writeln!(
        text,
        "  <text class=\"name\" x=\"{:.0}\" y=\"{:.0}\">{}</text>",
        LEFT - 10.0,
        top + BAR + 4.0,
        figure.name
    );
    for (class, width, down) in [("ours", ours, 0.0), ("plain", plain, BAR + 2.0)] {
        let _ = writeln!(
            text,
            "  <rect class=\"{class}\" x=\"{LEFT}\" y=\"{:.0}\" width=\"{width:.1}\" height=\"{BAR}\"/>",
            top + down
        );
    }
    let _ = writeln!(
        text,
        "  <path class=\"aim\" d=\"M{aim:.1} {:.0} V{:.0}\"/>",
        top - 4.0,
        top + BAR + 3.0
    );
    // The words stand behind the bar, and behind the mark where that is farther on.
    let _ = writeln!(
        text,
        "  <text class=\"number\" x=\"{:.1}\" y=\"{:.0}\">{:.1}, {:.2} times plain</text>",
        (LEFT + ours).max(aim) + 8.0,
        top + 13.0,
        figure.ours,
        figure.ours / figure.plain
    );
    let _ = writeln!(
        text,
        "  <text class=\"number\" x=\"{:.1}\" y=\"{:.0}\">{:.1}</text>",
        LEFT + plain + 8.0,
        top + BAR + 15.0,
        figure.plain
    );
    text
}
