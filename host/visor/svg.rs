//! A drawing as SVG, and inside an HTML page.

use crate::paint::{Anchor, Bitmap, Drawing, Point, Rgb, Shape, Stroke};
use crate::png;
use std::fmt::Write;

/// The drawing as an SVG file.
pub fn text(drawing: &Drawing) -> String {
    let (w, h) = (number(drawing.width), number(drawing.height));
    let mut svg = format!(
        "<svg xmlns=\"http://www.w3.org/2000/svg\" width=\"{w}\" height=\"{h}\" viewBox=\"0 0 {w} {h}\" \
         role=\"img\" font-family=\"DejaVu Sans, Verdana, sans-serif\">\n<title>{}</title>\n\
         <rect width=\"{w}\" height=\"{h}\" fill=\"#fff\"/>\n",
        escaped(&drawing.title)
    );
    for shape in &drawing.shapes {
        svg.push_str(&element(shape));
        svg.push('\n');
    }
    svg.push_str("</svg>\n");
    svg
}

/// The drawing on a page of its own, with its words below for those who cannot see it.
pub fn page(drawing: &Drawing, words: &[String]) -> String {
    let title = escaped(&drawing.title);
    let list: String = words
        .iter()
        .map(|line| format!("<li>{}</li>\n", escaped(line)))
        .collect();
    format!(
        "<!DOCTYPE html>\n<html lang=\"en\">\n<head>\n<meta charset=\"utf-8\">\n<title>{title}</title>\n<style>\n\
         body {{ margin: 1em; font-family: DejaVu Sans, Verdana, sans-serif; }}\nsvg {{ max-width: 100%; height: auto; }}\n\
         </style>\n</head>\n<body>\n{}<ul>\n{list}</ul>\n</body>\n</html>\n",
        text(drawing)
    )
}

/// Text inside an element or an attribute.
pub fn escaped(text: &str) -> String {
    let mut out = String::with_capacity(text.len());
    for c in text.chars() {
        match c {
            '&' => out.push_str("&amp;"),
            '<' => out.push_str("&lt;"),
            '>' => out.push_str("&gt;"),
            '"' => out.push_str("&quot;"),
            // What XML does not allow, a file's name may have.
            c if c.is_control() || matches!(c, '\u{fffe}' | '\u{ffff}') => out.push('\u{fffd}'),
            c => out.push(c),
        }
    }
    out
}

/// A bitmap as an address that has it inside.
pub fn data(bitmap: &Bitmap) -> String {
    format!("data:image/png;base64,{}", base64(&png::encode(bitmap)))
}

fn base64(bytes: &[u8]) -> String {
    const DIGITS: &[u8; 64] = b"ABCDEFGHIJKLMNOPQRSTUVWXYZabcdefghijklmnopqrstuvwxyz0123456789+/";
    let mut out = String::with_capacity(bytes.len().div_ceil(3) * 4);
    for part in bytes.chunks(3) {
        let three = [
            part[0],
            *part.get(1).unwrap_or(&0),
            *part.get(2).unwrap_or(&0),
        ];
        let bits = u32::from_be_bytes([0, three[0], three[1], three[2]]);
        for n in 0..4 {
            let digit = DIGITS[(bits >> (18 - 6 * n) & 63) as usize];
            out.push(if n <= part.len() { digit.into() } else { '=' });
        }
    }
    out
}

/// A length with two decimals at most.
fn number(length: f64) -> String {
    let text = format!("{length:.2}");
    let short = text.trim_end_matches('0').trim_end_matches('.');
    match short {
        "-0" => "0".to_string(),
        short => short.to_string(),
    }
}

fn colour(Rgb(r, g, b): Rgb) -> String {
    format!("#{r:02x}{g:02x}{b:02x}")
}

fn filled(fill: Option<Rgb>) -> String {
    format!(" fill=\"{}\"", fill.map_or("none".to_string(), colour))
}

fn stroked(stroke: &Stroke) -> String {
    let mut out = format!(
        " stroke=\"{}\" stroke-width=\"{}\"",
        colour(stroke.colour),
        number(stroke.width)
    );
    if let Some((on, off)) = stroke.dash {
        let _ = write!(out, " stroke-dasharray=\"{} {}\"", number(on), number(off));
    }
    out
}

fn pair((x, y): Point) -> String {
    format!("{} {}", number(x), number(y))
}

fn element(shape: &Shape) -> String {
    match shape {
        Shape::Rect {
            at,
            size,
            radius,
            fill,
            stroke,
        } => rectangle(placed(*at, *size), *radius, *fill, stroke.as_ref()),
        Shape::Lines { ends, stroke } => lines(ends, stroke),
        Shape::Polygon {
            points,
            fill,
            stroke,
        } => polygon(points, *fill, stroke.as_ref()),
        Shape::Circle { at, radius, fill } => {
            let [x, y, r] = [at.0, at.1, *radius].map(number);
            let fill = filled(Some(*fill));
            format!("<circle cx=\"{x}\" cy=\"{y}\" r=\"{r}\"{fill}/>")
        }
        Shape::Text {
            at,
            size,
            bold,
            colour,
            anchor,
            text,
        } => {
            let [x, y, size] = [at.0, at.1, *size].map(number);
            let weight = if *bold { " font-weight=\"bold\"" } else { "" };
            let (anchor, fill) = (anchored(*anchor), filled(Some(*colour)));
            let text = escaped(text);
            format!("<text x=\"{x}\" y=\"{y}\" font-size=\"{size}\"{weight}{anchor}{fill}>{text}</text>")
        }
        Shape::Pixels { at, size, bitmap } => format!(
            "<image{} preserveAspectRatio=\"none\" style=\"image-rendering:pixelated\" href=\"{}\"/>",
            placed(*at, *size),
            data(bitmap)
        ),
    }
}

fn rectangle(placed: String, radius: f64, fill: Option<Rgb>, stroke: Option<&Stroke>) -> String {
    let round = match radius {
        r if r > 0.0 => format!(" rx=\"{}\"", number(r)),
        _ => String::new(),
    };
    let edge = stroke.map_or(String::new(), stroked);
    format!("<rect{placed}{round}{}{edge}/>", filled(fill))
}

fn lines(ends: &[(Point, Point)], stroke: &Stroke) -> String {
    let path: String = ends
        .iter()
        .map(|(from, to)| format!("M{}L{}", pair(*from), pair(*to)))
        .collect();
    format!("<path d=\"{path}\" fill=\"none\"{}/>", stroked(stroke))
}

fn polygon(points: &[Point], fill: Option<Rgb>, stroke: Option<&Stroke>) -> String {
    let points: Vec<String> = points.iter().map(|point| pair(*point)).collect();
    let edge = stroke.map_or(String::new(), |stroke| {
        format!("{} stroke-linejoin=\"round\"", stroked(stroke))
    });
    format!(
        "<polygon points=\"{}\"{}{edge}/>",
        points.join(","),
        filled(fill)
    )
}

fn placed((x, y): Point, (w, h): (f64, f64)) -> String {
    let [x, y, w, h] = [x, y, w.max(0.0), h.max(0.0)].map(number);
    format!(" x=\"{x}\" y=\"{y}\" width=\"{w}\" height=\"{h}\"")
}

fn anchored(anchor: Anchor) -> &'static str {
    match anchor {
        Anchor::Start => "",
        Anchor::Middle => " text-anchor=\"middle\"",
        Anchor::End => " text-anchor=\"end\"",
    }
}

#[cfg(test)]
mod tests {
    use super::*;

    #[test]
    fn numbers_are_short() {
        let all = [1.0, 1.5, 1.256, -0.001, 100.0, 0.1].map(number);
        assert_eq!(all, ["1", "1.5", "1.26", "0", "100", "0.1"]);
    }

    #[test]
    fn base64_of_every_length() {
        let all = ["", "f", "fo", "foo", "foob"].map(|text| base64(text.as_bytes()));
        assert_eq!(all, ["", "Zg==", "Zm8=", "Zm9v", "Zm9vYg=="]);
    }

    #[test]
    fn names_are_escaped() {
        assert_eq!(escaped("a<b>&\"\u{7}é"), "a&lt;b&gt;&amp;&quot;\u{fffd}é");
    }
}
