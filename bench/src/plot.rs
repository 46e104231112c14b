//! The benchmarks' plot: ratios as bars. Figures stand in columns of their own beside the bars, where no mark can cover them.

use crate::report::Report;
use std::fmt::Write;

const WIDTH: f64 = 900.0;
/// Where bars begin and the longest may end.
const LEFT: f64 = 320.0;
const RIGHT: f64 = 720.0;
/// Where the columns of figures end: times, instructions and aims.
const COLUMNS: [f64; 3] = [770.0, 830.0, 880.0];
const TOP: f64 = 44.0;
const STEP: f64 = 24.0;

const TIME: &str = "#4a7ebb";
const COUNT: &str = "#a9a9a9";
const AIM: &str = "#c33";

/// A line of the plot: a heading, or a row's ratios.
enum Line {
    Heading(&'static str),
    Bars { what: String, time: f64, count: Option<f64>, aim: f64 },
}

fn lines(report: &Report) -> Vec<Line> {
    let mut lines = vec![Line::Heading("Proved crates over the second implementation")];
    lines.extend(report.rows.iter().map(|row| Line::Bars {
        what: row.what.clone(),
        time: row.time_ratio(),
        count: row.count_ratio(),
        aim: row.aim,
    }));
    lines.push(Line::Heading("Built-in scheduler on one core over the serial run, both of the proved crates"));
    lines.extend(report.over.iter().map(|over| Line::Bars {
        what: over.what.clone(),
        time: over.scheduled / over.serial,
        count: None,
        aim: 3.0,
    }));
    lines
}

struct Plot {
    out: String,
    /// the ratio at the right end
    most: f64,
}

impl Plot {
    fn x(&self, ratio: f64) -> f64 {
        LEFT + (RIGHT - LEFT) * ratio / self.most
    }

    fn text(&mut self, x: f64, y: f64, rest: &str, text: &str) {
        let _ = writeln!(self.out, "<text x=\"{x:.1}\" y=\"{y:.1}\"{rest}>{text}</text>");
    }

    fn rectangle(&mut self, x: f64, y: f64, width: f64, height: f64, colour: &str) {
        let _ = writeln!(
            self.out,
            "<rect x=\"{x:.1}\" y=\"{y:.1}\" width=\"{width:.1}\" height=\"{height:.1}\" fill=\"{colour}\"/>"
        );
    }

    /// The title, what the colours mean, and the columns' names.
    fn head(&mut self) {
        self.text(10.0, 22.0, " font-size=\"15\"", "Benchmarks: ratios");
        for (x, colour, what) in [(LEFT, TIME, "time"), (LEFT + 70.0, COUNT, "instructions"), (LEFT + 190.0, AIM, "aim, at most")] {
            self.rectangle(x, 12.0, 12.0, 10.0, colour);
            self.text(x + 18.0, 22.0, "", what);
        }
        for (x, what) in COLUMNS.into_iter().zip(["time", "instr.", "aim"]) {
            self.text(x, TOP + 13.0, " text-anchor=\"end\" fill=\"#555\"", what);
        }
    }

    /// Upright lines with their ratios, behind the bars.
    fn axis(&mut self, bottom: f64) {
        let apart = [1, 2, 5, 10].into_iter().find(|apart| self.most <= 12.0 * *apart as f64).unwrap_or(50);
        for tick in (0..=self.most as usize).filter(|tick| *tick == 1 || tick % apart == 0) {
            let colour = if tick == 1 { "#888" } else { "#ddd" };
            self.rectangle(self.x(tick as f64) - 0.5, TOP - 4.0, 1.0, bottom - TOP + 4.0, colour);
            self.text(self.x(tick as f64), bottom + 16.0, " text-anchor=\"middle\"", &tick.to_string());
        }
    }

    fn line(&mut self, y: f64, line: &Line) {
        match line {
            Line::Heading(text) => {
                self.rectangle(0.0, y - 4.0, RIGHT + 8.0, STEP, "white");
                self.text(10.0, y + 13.0, " font-weight=\"bold\"", text);
            }
            Line::Bars { what, time, count, aim } => {
                let end = " text-anchor=\"end\"";
                self.text(LEFT - 8.0, y + 13.0, end, what);
                self.rectangle(LEFT, y, self.x(*time) - LEFT, if count.is_some() { 10.0 } else { 16.0 }, TIME);
                if let Some(count) = count {
                    self.rectangle(LEFT, y + 11.0, self.x(*count) - LEFT, 5.0, COUNT);
                }
                self.rectangle(self.x(*aim) - 1.0, y - 2.0, 2.0, 20.0, AIM);
                let figures = [format!("{time:.2}"), count.map_or(String::new(), |count| format!("{count:.2}")), format!("{aim:.1}")];
                for (x, figure) in COLUMNS.into_iter().zip(figures) {
                    self.text(x, y + 13.0, end, &figure);
                }
            }
        }
    }
}

/// The most of all ratios and aims.
fn most(lines: &[Line]) -> f64 {
    let most = |line: &Line| match line {
        Line::Heading(_) => 1.0,
        Line::Bars { time, count, aim, .. } => time.max(count.unwrap_or(0.0)).max(*aim),
    };
    lines.iter().map(most).fold(1.0, f64::max)
}

pub fn plot(report: &Report) -> String {
    let lines = lines(report);
    let mut plot = Plot { out: String::new(), most: most(&lines).ceil() };
    let bottom = TOP + STEP * lines.len() as f64;
    let height = bottom + 30.0;
    let _ = writeln!(
        plot.out,
        "<svg xmlns=\"http://www.w3.org/2000/svg\" width=\"{WIDTH}\" height=\"{height}\" viewBox=\"0 0 {WIDTH} {height}\" \
         font-family=\"sans-serif\" font-size=\"12\">"
    );
    plot.rectangle(0.0, 0.0, WIDTH, height, "white");
    plot.head();
    plot.axis(bottom);
    for (i, line) in lines.iter().enumerate() {
        plot.line(TOP + STEP * i as f64, line);
    }
    plot.out + "</svg>\n"
}
