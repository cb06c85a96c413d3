//! A picture as SVG text: black lines on white, and greys to tell things apart. The same calls give the same bytes.

/// From the left, and from the top.
pub type Point = (f64, f64);

pub const WHITE: &str = "#ffffff";
pub const LIGHT: &str = "#e8e8e8";
pub const GREY: &str = "#cccccc";
pub const DARK: &str = "#aaaaaa";
pub const BLACK: &str = "#000000";

/// Which part of a text stands at its point.
#[derive(Clone, Copy)]
pub enum Anchor {
    Start,
    Middle,
    End,
}

#[derive(Clone, Copy)]
pub enum Stroke {
    Thin,
    Thick,
    Dashed,
}

impl Stroke {
    fn attributes(self) -> &'static str {
        match self {
            Stroke::Thin => r#"stroke="black" stroke-width="1""#,
            Stroke::Thick => r#"stroke="black" stroke-width="2.5""#,
            Stroke::Dashed => r#"stroke="black" stroke-width="1" stroke-dasharray="5 4""#,
        }
    }
}

pub struct Svg {
    text: String,
}

impl Svg {
    /// A white picture; the title is for readers who can't see it.
    pub fn new(width: u32, height: u32, title: &str) -> Svg {
        let size = format!(r#"width="{width}" height="{height}""#);
        let view = format!(r#"viewBox="0 0 {width} {height}""#);
        let mut svg = Svg { text: String::new() };
        svg.push(&format!(
            r#"<svg xmlns="http://www.w3.org/2000/svg" {size} {view} font-family="sans-serif">"#
        ));
        svg.push(&format!("<title>{}</title>", escaped(title)));
        svg.push(&format!(r#"<rect {size} fill="{WHITE}"/>"#));
        svg
    }

    /// A rectangle by its upper left corner.
    pub fn rect(&mut self, (x, y): Point, (width, height): Point, fill: &str, stroke: Stroke) {
        let [x, y, width, height] = [x, y, width, height].map(number);
        let stroke = stroke.attributes();
        self.push(&format!(
            r#"<rect x="{x}" y="{y}" width="{width}" height="{height}" fill="{fill}" {stroke}/>"#
        ));
    }

    /// A line through all points.
    pub fn line(&mut self, points: &[Point], stroke: Stroke) {
        let (points, stroke) = (joined(points), stroke.attributes());
        self.push(&format!(r#"<polyline points="{points}" fill="none" {stroke}/>"#));
    }

    /// A line through all points, with a head at the last.
    pub fn arrow(&mut self, points: &[Point], stroke: Stroke) {
        self.line(points, stroke);
        if let [.., (fx, fy), (tx, ty)] = *points {
            let length = ((tx - fx) * (tx - fx) + (ty - fy) * (ty - fy)).sqrt();
            let (ux, uy) = ((tx - fx) / length, (ty - fy) / length);
            let (bx, by) = (tx - 11.0 * ux, ty - 11.0 * uy);
            self.area(
                &[(tx, ty), (bx - 4.5 * uy, by + 4.5 * ux), (bx + 4.5 * uy, by - 4.5 * ux)],
                BLACK,
            );
        }
    }

    /// What the points enclose, filled.
    pub fn area(&mut self, points: &[Point], fill: &str) {
        let points = joined(points);
        self.push(&format!(r#"<polygon points="{points}" fill="{fill}"/>"#));
    }

    pub fn circle(&mut self, (x, y): Point, radius: f64, fill: &str) {
        let [x, y, radius] = [x, y, radius].map(number);
        let stroke = Stroke::Thin.attributes();
        self.push(&format!(
            r#"<circle cx="{x}" cy="{y}" r="{radius}" fill="{fill}" {stroke}/>"#
        ));
    }

    /// One line of text; the point is on its baseline.
    pub fn text(&mut self, at: Point, anchor: Anchor, size: u32, text: &str) {
        self.write(at, anchor, size, "", text);
    }

    pub fn bold(&mut self, at: Point, anchor: Anchor, size: u32, text: &str) {
        self.write(at, anchor, size, r#" font-weight="bold""#, text);
    }

    /// Lines of text in the middle of a rectangle.
    pub fn boxed(&mut self, corner: Point, sides: Point, fill: &str, stroke: Stroke, size: u32, lines: &[&str]) {
        self.rect(corner, sides, fill, stroke);
        let step = f64::from(size) * 1.35;
        let above = (lines.len() as f64 - 1.0) / 2.0;
        for (i, line) in lines.iter().enumerate() {
            let y = corner.1 + sides.1 / 2.0 + (i as f64 - above) * step + f64::from(size) * 0.36;
            self.text((corner.0 + sides.0 / 2.0, y), Anchor::Middle, size, line);
        }
    }

    /// The whole file.
    pub fn finish(self) -> String {
        self.text + "</svg>\n"
    }

    fn write(&mut self, (x, y): Point, anchor: Anchor, size: u32, more: &str, text: &str) {
        let [x, y] = [x, y].map(number);
        let anchor = match anchor {
            Anchor::Start => "start",
            Anchor::Middle => "middle",
            Anchor::End => "end",
        };
        let text = escaped(text);
        self.push(&format!(
            r#"<text x="{x}" y="{y}" font-size="{size}" text-anchor="{anchor}"{more}>{text}</text>"#
        ));
    }

    fn push(&mut self, element: &str) {
        self.text.push_str(element);
        self.text.push('\n');
    }
}

/// With two decimals at most.
fn number(x: f64) -> String {
    let text = format!("{x:.2}");
    text.trim_end_matches('0').trim_end_matches('.').to_string()
}

fn joined(points: &[Point]) -> String {
    let points: Vec<String> = points
        .iter()
        .map(|&(x, y)| format!("{},{}", number(x), number(y)))
        .collect();
    points.join(" ")
}

fn escaped(text: &str) -> String {
    text.replace('&', "&amp;").replace('<', "&lt;").replace('>', "&gt;")
}

#[cfg(test)]
mod tests {
    use super::*;

    #[test]
    fn numbers_have_no_idle_zeros() {
        assert_eq!([2.0, 2.5, 0.125, 100.0].map(number), ["2", "2.5", "0.12", "100"]);
    }

    #[test]
    fn signs_of_markup_are_escaped() {
        assert_eq!(escaped("a < b & c"), "a &lt; b &amp; c");
    }
}
