//! A drawing in SVG, shape by shape.

use std::fmt::Write;

pub struct Svg {
    text: String,
}

/// Where a label hangs on its point.
#[derive(Clone, Copy)]
pub enum Hang {
    Start,
    Middle,
    End,
}

/// Text for a place between tags.
pub fn escape(text: &str) -> String {
    let mut escaped = String::new();
    for c in text.chars() {
        match c {
            '&' => escaped.push_str("&amp;"),
            '<' => escaped.push_str("&lt;"),
            '>' => escaped.push_str("&gt;"),
            '"' => escaped.push_str("&quot;"),
            c if c.is_control() => escaped.push('\u{fffd}'),
            c => escaped.push(c),
        }
    }
    escaped
}

impl Svg {
    pub fn new(width: f64, height: f64, title: &str) -> Svg {
        let text = format!(
            "<svg xmlns=\"http://www.w3.org/2000/svg\" viewBox=\"0 0 {width} {height}\" \
             width=\"{width}\" height=\"{height}\" \
             font-family=\"Helvetica, Arial, 'DejaVu Sans', sans-serif\" font-size=\"14\">\n\
             <title>{}</title>\n\
             <rect width=\"{width}\" height=\"{height}\" fill=\"#fff\"/>\n",
            escape(title)
        );
        Svg { text }
    }

    pub fn label(&mut self, x: f64, y: f64, hang: Hang, style: &str, text: &str) {
        let anchor = match hang {
            Hang::Start => "start",
            Hang::Middle => "middle",
            Hang::End => "end",
        };
        let text = escape(text);
        let _ = writeln!(
            self.text,
            "<text x=\"{x:.1}\" y=\"{y:.1}\" text-anchor=\"{anchor}\" {style}>{text}</text>"
        );
    }

    /// A label that is read from below.
    pub fn upright(&mut self, x: f64, y: f64, text: &str) {
        let style = format!("transform=\"rotate(-90 {x:.1} {y:.1})\"");
        self.label(x, y, Hang::Middle, &style, text);
    }

    pub fn line(&mut self, from: (f64, f64), to: (f64, f64), style: &str) {
        let ((x1, y1), (x2, y2)) = (from, to);
        let _ = writeln!(
            self.text,
            "<line x1=\"{x1:.1}\" y1=\"{y1:.1}\" x2=\"{x2:.1}\" y2=\"{y2:.1}\" {style}/>"
        );
    }

    pub fn rect(&mut self, at: (f64, f64), size: (f64, f64), style: &str) {
        let ((x, y), (width, height)) = (at, size);
        let _ = writeln!(
            self.text,
            "<rect x=\"{x:.2}\" y=\"{y:.2}\" width=\"{width:.2}\" height=\"{height:.2}\" {style}/>"
        );
    }

    pub fn dot(&mut self, (x, y): (f64, f64), radius: f64, style: &str) {
        let _ = writeln!(self.text, "<circle cx=\"{x:.1}\" cy=\"{y:.1}\" r=\"{radius}\" {style}/>");
    }

    /// A cross in a square, by its upper left corner.
    pub fn cross(&mut self, (x, y): (f64, f64), size: f64, style: &str) {
        self.line((x, y), (x + size, y + size), style);
        self.line((x, y + size), (x + size, y), style);
    }

    /// A triangle on its tip in a square, by its upper left corner.
    pub fn triangle(&mut self, (x, y): (f64, f64), size: f64, style: &str) {
        let (right, middle, foot) = (x + size, x + size / 2.0, y + size);
        let _ = writeln!(
            self.text,
            "<path d=\"M{x:.1} {y:.1}L{right:.1} {y:.1}L{middle:.1} {foot:.1}Z\" {style}/>"
        );
    }

    /// A path through points; a missing one leaves a gap.
    pub fn path(&mut self, points: impl Iterator<Item = Option<(f64, f64)>>, style: &str) {
        let mut path = String::new();
        let mut letter = 'M';
        for point in points {
            match point {
                Some((x, y)) => {
                    let _ = write!(path, "{letter}{x:.1} {y:.1}");
                    letter = 'L';
                }
                None => letter = 'M',
            }
        }
        if !path.is_empty() {
            let _ = writeln!(self.text, "<path d=\"{path}\" fill=\"none\" {style}/>");
        }
    }

    pub fn end(mut self) -> String {
        self.text.push_str("</svg>\n");
        self.text
    }
}
