//! A chart of two lines as an SVG file.

/// What is drawn.
pub struct Chart<'a> {
    /// What it shows.
    pub title: &'a str,
    /// What goes to the right.
    pub across: &'a str,
    /// The numbers written below the axis.
    pub marks: &'a [usize],
    /// The lines: name, colour and points (number, microseconds).
    pub lines: [Line<'a>; 2],
}

/// A line of a chart.
pub struct Line<'a> {
    /// What it stands for.
    pub name: &'a str,
    /// Its colour, by its name in CSS.
    pub colour: &'a str,
    /// Its points.
    pub points: Vec<(usize, f64)>,
}

const WIDTH: f64 = 720.0;
const HEIGHT: f64 = 400.0;
const LEFT: f64 = 70.0;
const RIGHT: f64 = 20.0;
const TOP: f64 = 50.0;
const BOTTOM: f64 = 60.0;

impl Chart<'_> {
    /// The file's text.
    pub fn svg(&self) -> String {
        let (step, count) = self.steps();
        let top = step * count as f64;
        let mut svg = format!(
            "<svg xmlns=\"http://www.w3.org/2000/svg\" viewBox=\"0 0 {WIDTH} {HEIGHT}\" \
             width=\"{WIDTH}\" height=\"{HEIGHT}\" font-family=\"sans-serif\" font-size=\"13\">\n\
             <rect width=\"{WIDTH}\" height=\"{HEIGHT}\" fill=\"white\"/>\n"
        );
        svg += &text(WIDTH / 2.0, 22.0, "middle", self.title);
        svg += &text(LEFT + (WIDTH - LEFT - RIGHT) / 2.0, HEIGHT - 12.0, "middle", self.across);
        svg += &text(LEFT - 8.0, TOP - 14.0, "middle", "microseconds");
        svg += &upward_axis(step, count);
        svg += &self.marks_across();
        for (place, line) in self.lines.iter().enumerate() {
            svg += &self.line(line, top);
            svg += &legend(line, place);
        }
        svg + "</svg>\n"
    }

    /// The distance between two numbers of the upward axis, a round one, and how many there are.
    fn steps(&self) -> (f64, usize) {
        let points = self.lines.iter().flat_map(|line| &line.points);
        let most = points.map(|point| point.1).fold(1.0, f64::max);
        let unit = 10f64.powf((most / 5.0).log10().floor());
        let round = [1.0, 2.0, 2.5, 5.0, 10.0].map(|times| times * unit);
        let step = round.into_iter().find(|&step| step * 5.0 >= most).unwrap_or(most);
        (step, (most / step).ceil() as usize)
    }

    fn x(&self, number: usize) -> f64 {
        let first = self.marks[0] as f64;
        let last = self.marks[self.marks.len() - 1] as f64;
        LEFT + (number as f64 - first) / (last - first) * (WIDTH - LEFT - RIGHT)
    }

    fn marks_across(&self) -> String {
        let mut svg = String::new();
        let foot = HEIGHT - BOTTOM;
        for &mark in self.marks {
            let (x, below) = (self.x(mark), foot + 5.0);
            svg += &format!(
                "<line x1=\"{x:.1}\" y1=\"{foot}\" x2=\"{x:.1}\" y2=\"{below}\" \
                 stroke=\"black\"/>\n"
            );
            svg += &text(x, foot + 20.0, "middle", &mark.to_string());
        }
        svg
    }

    fn line(&self, line: &Line, top: f64) -> String {
        let place = |&(number, time): &(usize, f64)| (self.x(number), y(time, top));
        let places: Vec<(f64, f64)> = line.points.iter().map(place).collect();
        let path: Vec<String> = places.iter().map(|(x, y)| format!("{x:.1},{y:.1}")).collect();
        let colour = line.colour;
        let mut svg = format!(
            "<polyline points=\"{}\" fill=\"none\" stroke=\"{colour}\" stroke-width=\"2\"/>\n",
            path.join(" ")
        );
        for (x, y) in places {
            svg += &format!("<circle cx=\"{x:.1}\" cy=\"{y:.1}\" r=\"3\" fill=\"{colour}\"/>\n");
        }
        svg
    }
}

fn upward_axis(step: f64, count: usize) -> String {
    let mut svg = String::new();
    for place in 0..=count {
        let number = step * place as f64;
        let (height, end) = (y(number, step * count as f64), WIDTH - RIGHT);
        svg += &format!(
            "<line x1=\"{LEFT}\" y1=\"{height:.1}\" x2=\"{end}\" y2=\"{height:.1}\" \
             stroke=\"#cccccc\"/>\n"
        );
        let digits = usize::from(step < 5.0);
        svg += &text(LEFT - 8.0, height + 4.0, "end", &format!("{number:.digits$}"));
    }
    svg
}

fn y(number: f64, top: f64) -> f64 {
    HEIGHT - BOTTOM - number / top * (HEIGHT - TOP - BOTTOM)
}

fn legend(line: &Line, place: usize) -> String {
    let x = WIDTH - 300.0 + 150.0 * place as f64;
    let (y, end) = (TOP - 14.0, x + 22.0);
    let stroke = format!(
        "<line x1=\"{x}\" y1=\"{y}\" x2=\"{end}\" y2=\"{y}\" stroke=\"{}\" stroke-width=\"3\"/>\n",
        line.colour
    );
    stroke + &text(x + 28.0, y + 4.0, "start", line.name)
}

fn text(x: f64, y: f64, anchor: &str, words: &str) -> String {
    format!("<text x=\"{x:.1}\" y=\"{y:.1}\" text-anchor=\"{anchor}\">{words}</text>\n")
}
