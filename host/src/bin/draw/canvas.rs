//! A piece of the plane on a sheet of dots: turns cells into dots and collects the SVG elements.
use std::fmt::Write;
use ushanderi_host::Rect;

/// The longer side of the picture, in dots, and what lies around it.
const LONGER_SIDE: f64 = 960.0;
const SHORTEST_SIDE: f64 = 120.0;
const FRAME: f64 = 24.0;
/// No picture is so narrow that the words below it are cut off.
const LEAST_WIDTH: f64 = 560.0;
const STYLE: &str = "\
text { font-family: Helvetica, Arial, sans-serif }
.space { fill: #f7f8fa; stroke: #c3cbd6; stroke-width: 0.7 }
.solid { stroke-width: 1 }
.middle { text-anchor: middle }
.words { fill: #3a4250 }
.area { fill: #d62839; fill-opacity: 0.06; stroke: #d62839; stroke-width: 2; stroke-dasharray: 8 5 }
.number { fill: #ffffff; fill-opacity: 0.94; stroke: #d62839; stroke-width: 1.2 }
.digits { fill: #8c1420; font-weight: bold }
.halo { stroke: #ffffff; stroke-opacity: 0.8; stroke-width: 3.4 }
.stitch { stroke: #1b2a49; stroke-width: 1.3; marker-end: url(#tip) }
.knot { fill: #1b2a49; stroke: #ffffff; stroke-width: 0.8 }
";
const TIP: &str = "<defs><marker id=\"tip\" viewBox=\"0 0 6 6\" refX=\"5\" refY=\"3\" markerWidth=\"5\" \
                   markerHeight=\"5\" orient=\"auto\"><path d=\"M0,0.4 L6,3 L0,5.6 z\" fill=\"#1b2a49\"/></marker></defs>";

const WORDS_LINE: f64 = 22.0;
const WORDS_SIZE: f64 = 13.0;

pub struct Canvas {
    view: Rect,
    scale: (f64, f64),
    body: String,
    lines_below: usize,
}

/// A rectangle in dots; y counts downwards.
#[derive(Clone, Copy)]
pub struct Dots {
    pub x: f64,
    pub y: f64,
    pub width: f64,
    pub height: f64,
}

impl Dots {
    /// Of this size around a point.
    pub fn around((x, y): (f64, f64), (width, height): (f64, f64)) -> Dots {
        Dots { x: x - width / 2.0, y: y - height / 2.0, width, height }
    }

    pub fn middle(&self) -> (f64, f64) {
        (self.x + self.width / 2.0, self.y + self.height / 2.0)
    }

    /// What digits of this size take in the middle of the rectangle.
    pub fn of_digits(&self, size: f64, digits: &str) -> Dots {
        Dots::around(self.middle(), (0.65 * size * digits.len() as f64, size))
    }

    pub fn shorter_side(&self) -> f64 {
        self.width.min(self.height)
    }

    /// Whether it meets none of these.
    pub fn keeps_off(&self, taken: &[Dots]) -> bool {
        taken.iter().all(|other| !self.meets(other))
    }

    fn meets(&self, other: &Dots) -> bool {
        self.x < other.x + other.width
            && other.x < self.x + self.width
            && self.y < other.y + other.height
            && other.y < self.y + self.height
    }
}

impl Canvas {
    pub fn new(view: Rect) -> Canvas {
        let (width, height) = (f64::from(view.right - view.left), f64::from(view.top - view.bottom));
        let scale = LONGER_SIDE / width.max(height);
        // A view that is hardly more than a line is stretched, so that something can be seen.
        let stretch = |side: f64| scale.max(SHORTEST_SIDE / side);
        Canvas { view, scale: (stretch(width), stretch(height)), body: String::new(), lines_below: 0 }
    }

    pub fn view(&self) -> Rect {
        self.view
    }

    /// The width of the sheet, of which the picture may be a part.
    fn width(&self) -> f64 {
        (f64::from(self.view.right - self.view.left) * self.scale.0 + 2.0 * FRAME).max(LEAST_WIDTH)
    }

    /// Where the picture ends and the words below it begin.
    fn lower_end(&self) -> f64 {
        FRAME + f64::from(self.view.top - self.view.bottom) * self.scale.1
    }

    /// The point where a column begins and a row begins.
    pub fn point(&self, x: i32, y: i32) -> (f64, f64) {
        let (across, down) = (f64::from(x) - f64::from(self.view.left), f64::from(self.view.top) - f64::from(y));
        (FRAME + across * self.scale.0, FRAME + down * self.scale.1)
    }

    /// The part of the rectangle that is in view.
    pub fn dots(&self, rect: &Rect) -> Option<Dots> {
        if !rect.shares_cell(&self.view) {
            return None;
        }
        let (x, y) = self.point(rect.left.max(self.view.left), rect.top.min(self.view.top));
        let (right, bottom) = self.point(rect.right.min(self.view.right), rect.bottom.max(self.view.bottom));
        Some(Dots { x, y, width: right - x, height: bottom - y })
    }

    pub fn rect(&mut self, dots: Dots, class: &str) {
        self.rounded(dots, 0.0, class);
    }

    /// A rectangle whose corners are rounded with this radius.
    pub fn rounded(&mut self, dots: Dots, radius: f64, class: &str) {
        let Dots { x, y, width, height } = dots;
        let corners = if radius > 0.0 { format!(" rx=\"{radius:.2}\"") } else { String::new() };
        self.add(format_args!(
            "<rect class=\"{class}\" x=\"{x:.2}\" y=\"{y:.2}\" width=\"{width:.2}\" height=\"{height:.2}\"{corners}/>"
        ));
    }

    /// Digits in the middle of a rectangle.
    pub fn digits(&mut self, dots: Dots, size: f64, class: &str, digits: &str) {
        let (x, y) = dots.middle();
        // The base line lies so far below the middle of a digit.
        self.text((x, y + size * 0.36), size, &format!("middle {class}"), digits);
    }

    fn text(&mut self, (x, y): (f64, f64), size: f64, class: &str, text: &str) {
        self.add(format_args!(
            "<text class=\"{class}\" x=\"{x:.2}\" y=\"{y:.2}\" font-size=\"{size:.1}\">{text}</text>"
        ));
    }

    pub fn circle(&mut self, (x, y): (f64, f64), radius: f64, class: &str) {
        self.add(format_args!("<circle class=\"{class}\" cx=\"{x:.2}\" cy=\"{y:.2}\" r=\"{radius:.1}\"/>"));
    }

    pub fn line(&mut self, (x1, y1): (f64, f64), (x2, y2): (f64, f64), class: &str) {
        self.add(format_args!("<line class=\"{class}\" x1=\"{x1:.2}\" y1=\"{y1:.2}\" x2=\"{x2:.2}\" y2=\"{y2:.2}\"/>"));
    }

    fn add(&mut self, element: std::fmt::Arguments) {
        writeln!(self.body, "{element}").expect("a string takes all that is written to it");
    }

    /// The base line of the next line of words below the picture.
    fn next_line(&mut self) -> f64 {
        self.lines_below += 1;
        self.lower_end() + WORDS_LINE * self.lines_below as f64
    }

    pub fn words(&mut self, words: &str) {
        let y = self.next_line();
        self.text((FRAME, y), WORDS_SIZE, "words", words);
    }

    /// A line that shows what each class looks like, of as many as there is room for.
    pub fn legend(&mut self, title: &str, shown: &[(String, String)]) {
        let (y, mut x) = (self.next_line(), FRAME + 8.0 * title.len() as f64 - 4.0);
        self.text((FRAME, y), WORDS_SIZE, "words", title);
        for (place, (class, words)) in shown.iter().enumerate() {
            let width = 26.0 + 8.0 * words.len() as f64;
            if x + width > self.width() - 90.0 {
                let more = format!("and {} more", shown.len() - place);
                self.text((x, y), WORDS_SIZE, "words", &more);
                return;
            }
            self.rect(Dots { x, y: y - 11.0, width: 12.0, height: 12.0 }, class);
            self.text((x + 16.0, y), WORDS_SIZE, "words", words);
            x += width;
        }
    }

    /// The whole picture, with these rules beside those that every picture has.
    pub fn finish(self, rules: &str) -> String {
        let (width, height) = (self.width(), self.lower_end() + WORDS_LINE * (self.lines_below as f64 + 0.5));
        let body = self.body;
        format!(
            "<svg xmlns=\"http://www.w3.org/2000/svg\" width=\"{width:.0}\" height=\"{height:.0}\" \
             viewBox=\"0 0 {width:.0} {height:.0}\">\n<style>\n{STYLE}{rules}</style>\n{TIP}\n\
             <rect width=\"100%\" height=\"100%\" fill=\"#ffffff\"/>\n{body}</svg>\n"
        )
    }
}
