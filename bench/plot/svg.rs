// Drawings: text as text, no outside resources, dash patterns and marks beside colours.
use std::fmt::Write;

pub struct Svg {
    width: f64,
    height: f64,
    text: String,
}

// Where a text stands at its point.
#[derive(Clone, Copy)]
pub enum At {
    Start,
    Middle,
    End,
}

// How a line is drawn.
#[derive(Clone, Copy)]
pub struct Style {
    pub colour: &'static str,
    pub dash: &'static str,
    pub mark: Mark,
}

#[derive(Clone, Copy)]
pub enum Mark {
    Disc,
    Square,
    Diamond,
    None,
}

impl Svg {
    pub fn new(width: f64, height: f64, title: &str) -> Svg {
        let mut text = format!(
            "<svg xmlns=\"http://www.w3.org/2000/svg\" width=\"{width}\" height=\"{height}\" viewBox=\"0 0 {width} {height}\" \
             font-family=\"Helvetica, Arial, sans-serif\" role=\"img\">\n<title>{title}</title>\n"
        );
        writeln!(text, "<rect width=\"{width}\" height=\"{height}\" fill=\"white\"/>").unwrap();
        Svg { width, height, text }
    }

    pub fn text(&mut self, x: f64, y: f64, size: f64, at: At, text: &str) {
        self.words(x, y, size, at, "", text);
    }

    pub fn bold(&mut self, x: f64, y: f64, size: f64, text: &str) {
        self.words(x, y, size, At::Start, " font-weight=\"bold\"", text);
    }

    fn words(&mut self, x: f64, y: f64, size: f64, at: At, more: &str, text: &str) {
        assert!(x >= 0.0 && x <= self.width && y >= 0.0 && y <= self.height, "outside the drawing: {text}");
        let anchor = match at {
            At::Start => "start",
            At::Middle => "middle",
            At::End => "end",
        };
        let text = text.replace('&', "&amp;").replace('<', "&lt;");
        writeln!(self.text, "<text x=\"{x:.1}\" y=\"{y:.1}\" font-size=\"{size}\" text-anchor=\"{anchor}\"{more}>{text}</text>").unwrap();
    }

    pub fn rule(&mut self, from: (f64, f64), to: (f64, f64), colour: &str) {
        let ((x, y), (z, w)) = (from, to);
        writeln!(self.text, "<line x1=\"{x:.1}\" y1=\"{y:.1}\" x2=\"{z:.1}\" y2=\"{w:.1}\" stroke=\"{colour}\"/>").unwrap();
    }

    pub fn line(&mut self, points: &[(f64, f64)], style: Style) {
        let path: Vec<String> = points.iter().map(|(x, y)| format!("{x:.1},{y:.1}")).collect();
        let Style { colour, dash, mark } = style;
        let dash = if dash.is_empty() { String::new() } else { format!(" stroke-dasharray=\"{dash}\"") };
        writeln!(self.text, "<polyline points=\"{}\" fill=\"none\" stroke=\"{colour}\" stroke-width=\"1.6\"{dash}/>", path.join(" "))
            .unwrap();
        points.iter().for_each(|point| self.mark(*point, 2.4, colour, mark));
    }

    pub fn mark(&mut self, (x, y): (f64, f64), r: f64, colour: &str, mark: Mark) {
        let shape = match mark {
            Mark::Disc => format!("<circle cx=\"{x:.1}\" cy=\"{y:.1}\" r=\"{r}\" fill=\"{colour}\"/>"),
            Mark::Square => {
                let (x, y, side) = (x - r, y - r, 2.0 * r);
                format!("<rect x=\"{x:.1}\" y=\"{y:.1}\" width=\"{side}\" height=\"{side}\" fill=\"white\" stroke=\"{colour}\"/>")
            }
            Mark::Diamond => {
                let r = 1.3 * r;
                let (left, right, top, bottom) = (x - r, x + r, y - r, y + r);
                format!("<path d=\"M{left:.1} {y:.1}L{x:.1} {top:.1}L{right:.1} {y:.1}L{x:.1} {bottom:.1}Z\" fill=\"white\" stroke=\"{colour}\"/>")
            }
            Mark::None => return,
        };
        writeln!(self.text, "{shape}").unwrap();
    }

    pub fn finish(mut self) -> String {
        self.text += "</svg>\n";
        self.text
    }
}
