//! The profile curve as a drawing (SVG) that stands alone: no script, style sheet or font from elsewhere. The same points give the same text.

use std::fmt::Write;

/// One value of the profile.
pub struct Point {
    pub theta: f64,
    pub deviance: f64,
}

const WIDTH: f64 = 720.0;
const HEIGHT: f64 = 480.0;
const TOP: f64 = 84.0;
const BOTTOM: f64 = 414.0;
const RIGHT: f64 = 694.0;

/// The width of a letter of the tick labels, rather too much than too little.
const LETTER: f64 = 7.0;

/// Beyond it the ends of an axis could overflow.
const LARGEST: f64 = 1e300;

/// The curve of a criterion over theta, with its least value marked. `mode` is "ML" or "REML".
pub fn curve(points: &[Point], mode: &str, title: &str) -> String {
    let mut points: Vec<&Point> = points.iter().filter(|point| drawable(point.theta) && drawable(point.deviance)).collect();
    points.sort_by(|a, b| a.theta.total_cmp(&b.theta));
    let name = if mode == "REML" { "REML criterion" } else { "deviance" };
    let mut svg = opening(title);
    match points.iter().min_by(|a, b| a.deviance.total_cmp(&b.deviance)) {
        Some(least) => draw(&mut svg, &points, least, name),
        None => text(&mut svg, (WIDTH / 2.0, HEIGHT / 2.0), "text-anchor=\"middle\"", "no finite value to draw"),
    }
    svg.push_str("</svg>\n");
    svg
}

fn drawable(number: f64) -> bool {
    number.abs() < LARGEST
}

fn opening(title: &str) -> String {
    const LONGEST: usize = 78;
    let mut svg = format!("<?xml version=\"1.0\" encoding=\"UTF-8\"?>\n<svg xmlns=\"http://www.w3.org/2000/svg\" width=\"{WIDTH}\" height=\"{HEIGHT}\" ");
    let _ = writeln!(svg, "viewBox=\"0 0 {WIDTH} {HEIGHT}\" font-family=\"sans-serif\" font-size=\"12\" fill=\"#222\">");
    let _ = writeln!(svg, "<title>{}</title>", escaped(title));
    let _ = writeln!(svg, "<rect width=\"{WIDTH}\" height=\"{HEIGHT}\" fill=\"#fff\"/>");
    // The element above keeps the whole title; the drawing has room for a part.
    let short = match title.char_indices().nth(LONGEST) {
        Some((end, _)) => format!("{}...", &title[..end]),
        None => title.to_string(),
    };
    text(&mut svg, (WIDTH / 2.0, 30.0), "text-anchor=\"middle\" font-size=\"16\" font-weight=\"bold\"", &short);
    svg
}

fn draw(svg: &mut String, points: &[&Point], least: &Point, name: &str) {
    let y = Axis::new(points.iter().map(|point| point.deviance), BOTTOM, TOP, |_, _| true);
    // Room for the turned label, the widest tick label and a gap.
    let left = 40.0 + y.widest() + 8.0;
    let fits = |ticks: usize, widest: f64| ticks as f64 * (widest + 2.0 * LETTER) < RIGHT - left;
    let x = Axis::new(points.iter().map(|point| point.theta), left, RIGHT, fits);
    draw_axes(svg, &x, &y, left);
    let units = if name == "deviance" { "deviance (-2 log likelihood, ML)" } else { "REML criterion (-2 log restricted likelihood)" };
    let (middle_x, middle_y) = ((left + RIGHT) / 2.0, (TOP + BOTTOM) / 2.0);
    let under = "text-anchor=\"middle\" font-size=\"13\"";
    text(svg, (middle_x, HEIGHT - 18.0), under, "theta (standard deviation of the levels / of the residuals, a ratio)");
    text(svg, (24.0, middle_y), &format!("{under} transform=\"rotate(-90 24.00 {middle_y:.2})\""), units);
    draw_curve(svg, points, &x, &y);
    draw_mark(svg, least, &x, &y, name);
}

/// Frame, grid and tick labels.
fn draw_axes(svg: &mut String, x: &Axis, y: &Axis, left: f64) {
    let (width, height) = (RIGHT - left, BOTTOM - TOP);
    for tick in &x.ticks {
        let at = x.place(tick.value);
        line(svg, (at, TOP), (at, BOTTOM + 5.0), "stroke=\"#e2e2e2\"");
        text(svg, (at, BOTTOM + 19.0), "text-anchor=\"middle\"", &tick.label);
    }
    for tick in &y.ticks {
        let at = y.place(tick.value);
        line(svg, (left - 5.0, at), (RIGHT, at), "stroke=\"#e2e2e2\"");
        text(svg, (left - 8.0, at + 4.0), "text-anchor=\"end\"", &tick.label);
    }
    let _ = writeln!(svg, "<rect x=\"{left:.2}\" y=\"{TOP:.2}\" width=\"{width:.2}\" height=\"{height:.2}\" fill=\"none\" stroke=\"#666\"/>");
}

fn draw_curve(svg: &mut String, points: &[&Point], x: &Axis, y: &Axis) {
    let places: Vec<(f64, f64)> = points.iter().map(|point| (x.place(point.theta), y.place(point.deviance))).collect();
    let joined: Vec<String> = places.iter().map(|(x, y)| format!("{x:.2},{y:.2}")).collect();
    let _ = writeln!(svg, "<polyline points=\"{}\" fill=\"none\" stroke=\"#1f5a96\" stroke-width=\"1.5\" stroke-linejoin=\"round\"/>", joined.join(" "));
    for (x, y) in places {
        let _ = writeln!(svg, "<circle class=\"point\" cx=\"{x:.2}\" cy=\"{y:.2}\" r=\"2.2\" fill=\"#1f5a96\"/>");
    }
}

/// A ring at the least value and a line down to its theta. Its numbers stand above the frame, where no curve can run through them.
fn draw_mark(svg: &mut String, least: &Point, x: &Axis, y: &Axis, name: &str) {
    let (x, y) = (x.place(least.theta), y.place(least.deviance));
    line(svg, (x, y + 6.0), (x, BOTTOM), "stroke=\"#b03020\" stroke-dasharray=\"3 3\"");
    let _ = writeln!(svg, "<circle class=\"least\" cx=\"{x:.2}\" cy=\"{y:.2}\" r=\"6\" fill=\"none\" stroke=\"#b03020\" stroke-width=\"1.8\"/>");
    let words = format!("ring: least {name} {} at theta {}", number(least.deviance), number(least.theta));
    text(svg, (WIDTH / 2.0, 60.0), "text-anchor=\"middle\" font-size=\"13\" fill=\"#b03020\"", &words);
}

fn line(svg: &mut String, from: (f64, f64), to: (f64, f64), style: &str) {
    let _ = writeln!(svg, "<line x1=\"{:.2}\" y1=\"{:.2}\" x2=\"{:.2}\" y2=\"{:.2}\" {style}/>", from.0, from.1, to.0, to.1);
}

fn text(svg: &mut String, at: (f64, f64), style: &str, words: &str) {
    let _ = writeln!(svg, "<text x=\"{:.2}\" y=\"{:.2}\" {style}>{}</text>", at.0, at.1, escaped(words));
}

/// A round value on an axis, as text in the digits that tell it from its neighbours.
struct Tick {
    value: f64,
    label: String,
}

/// The values from `low` to `high` along a line of the drawing.
struct Axis {
    low: f64,
    high: f64,
    from: f64,
    to: f64,
    ticks: Vec<Tick>,
}

impl Axis {
    /// An axis over all these values, with a margin, and with as many ticks as fit by their number and the widest label.
    fn new(values: impl Iterator<Item = f64> + Clone, from: f64, to: f64, fits: impl Fn(usize, f64) -> bool) -> Axis {
        let (least, most) = (values.clone().fold(f64::INFINITY, f64::min), values.fold(f64::NEG_INFINITY, f64::max));
        let margin = margin(least, most);
        let (low, high) = (least - margin, most + margin);
        let mut axis = Axis { low, high, from, to, ticks: Vec::new() };
        for spaces in [8.0, 5.0, 3.0, 2.0] {
            axis.ticks = ticks(low, high, spaces);
            if fits(axis.ticks.len(), axis.widest()) {
                break;
            }
        }
        axis
    }

    fn place(&self, value: f64) -> f64 {
        self.from + (value - self.low) / (self.high - self.low) * (self.to - self.from)
    }

    fn widest(&self) -> f64 {
        self.ticks.iter().map(|tick| tick.label.len()).max().unwrap_or(0) as f64 * LETTER
    }
}

/// What an axis has beyond its least and its greatest value. Equal values, or as good as equal ones, would leave no length to divide by.
fn margin(least: f64, most: f64) -> f64 {
    let (spread, size) = (most - least, least.abs().max(most.abs()));
    if size < 1e-290 {
        1.0
    } else if spread <= 1e-10 * size {
        0.05 * size
    } else {
        0.06 * spread
    }
}

/// The multiples of 1, 2 or 5 times a power of ten from `low` to `high`, with about so many spaces between them.
fn ticks(low: f64, high: f64, spaces: f64) -> Vec<Tick> {
    let (digit, exponent) = round_step((high - low) / spaces);
    let step = decimal(digit, exponent);
    let (first, last) = ((low / step).ceil() as i64, (high / step).floor() as i64);
    // Counted in whole numbers, so that no tick is a rounding error beside its round value.
    let values: Vec<f64> = (first..=last).map(|count| decimal(count * digit, exponent)).collect();
    let largest = values.iter().fold(0.0, |largest: f64, value| largest.max(value.abs()));
    let places = usize::try_from(-exponent).unwrap_or(0);
    let plain = largest < 1e7 && places <= 10;
    let label = |value: f64| match value {
        _ if plain => format!("{value:.places$}"),
        _ if value == 0.0 => "0".to_string(),
        _ => format!("{value:e}"),
    };
    values.into_iter().map(|value| Tick { value, label: label(value) }).collect()
}

/// The least 1, 2 or 5 times a power of ten that is not below a step: the digit and the exponent. They are read from the number's text, since logarithms
/// and powers differ between systems.
fn round_step(step: f64) -> (i64, i32) {
    let text = format!("{step:e}");
    let (digits, exponent) = text.split_once('e').unwrap_or((&text, "0"));
    let (digits, exponent): (f64, i32) = (digits.parse().unwrap_or(1.0), exponent.parse().unwrap_or(0));
    match [1, 2, 5].into_iter().find(|&digit| digits <= digit as f64) {
        Some(digit) => (digit, exponent),
        None => (1, exponent + 1),
    }
}

/// The double nearest to a whole number times a power of ten.
fn decimal(whole: i64, exponent: i32) -> f64 {
    format!("{whole}e{exponent}").parse().unwrap_or(0.0)
}

/// Six decimals, or an exponent for what they would not show.
fn number(value: f64) -> String {
    if value == 0.0 || (1e-3..1e9).contains(&value.abs()) {
        format!("{value:.6}")
    } else {
        format!("{value:.6e}")
    }
}

/// Text for XML, which has no place for most control characters.
fn escaped(text: &str) -> String {
    let mut escaped = String::new();
    for letter in text.chars() {
        match letter {
            '&' => escaped.push_str("&amp;"),
            '<' => escaped.push_str("&lt;"),
            '>' => escaped.push_str("&gt;"),
            '"' => escaped.push_str("&quot;"),
            '\'' => escaped.push_str("&#39;"),
            _ if letter.is_control() || matches!(letter, '\u{fffe}' | '\u{ffff}') => escaped.push(' '),
            _ => escaped.push(letter),
        }
    }
    escaped
}

#[cfg(test)]
mod tests {
    use super::*;

    fn points(pairs: &[(f64, f64)]) -> Vec<Point> {
        pairs.iter().map(|&(theta, deviance)| Point { theta, deviance }).collect()
    }

    /// A valley like Dyestuff's, with its least value at theta 0.75.
    fn valley() -> Vec<Point> {
        (0..=12).map(|i| f64::from(i) * 0.25).map(|theta| Point { theta, deviance: 327.327 + 4.0 * (theta - 0.75) * (theta - 0.75) / (0.3 + theta) }).collect()
    }

    /// Every tag is closed in turn, every attribute quoted, and there is no bare markup in the text.
    fn assert_well_formed(svg: &str) {
        let mut open = Vec::new();
        let mut rest = svg.strip_prefix("<?xml version=\"1.0\" encoding=\"UTF-8\"?>\n").unwrap();
        while let Some((before, behind)) = rest.split_once('<') {
            assert_text(before);
            let (tag, after) = behind.split_once('>').unwrap();
            rest = after;
            let name = tag.trim_start_matches('/').split([' ', '/']).next().unwrap();
            if tag.starts_with('/') {
                assert_eq!(open.pop(), Some(name));
                continue;
            }
            let attributes = &tag[name.len()..];
            assert_eq!(attributes.matches('"').count(), 2 * attributes.matches("=\"").count(), "{tag}");
            if !tag.ends_with('/') {
                open.push(name);
            }
        }
        assert!(open.is_empty() && rest == "\n", "{open:?} {rest:?}");
        assert!(!svg.contains("NaN") && !svg.contains("inf"), "{svg}");
    }

    fn assert_text(text: &str) {
        assert!(!text.contains(['>', '"']));
        for (at, _) in text.match_indices('&') {
            assert!(["&amp;", "&lt;", "&gt;", "&quot;", "&#39;"].iter().any(|entity| text[at..].starts_with(entity)), "{text}");
        }
    }

    /// The places of the circles of a class.
    fn circles(svg: &str, class: &str) -> Vec<(f64, f64)> {
        let attribute = |line: &str, name: &str| line.split(&format!("{name}=\"")).nth(1).unwrap().split('"').next().unwrap().parse().unwrap();
        let start = format!("<circle class=\"{class}\"");
        svg.lines().filter(|line| line.starts_with(&start)).map(|line| (attribute(line, "cx"), attribute(line, "cy"))).collect()
    }

    fn labels(low: f64, high: f64) -> Vec<String> {
        ticks(low, high, 5.0).into_iter().map(|tick| tick.label).collect()
    }

    #[test]
    fn both_modes() {
        let ml = curve(&valley(), "ML", "Dyestuff");
        assert_well_formed(&ml);
        assert!(ml.contains(">deviance (-2 log likelihood, ML)<") && ml.contains(">theta (standard deviation of the levels / of the residuals, a ratio)<"));
        let reml = curve(&valley(), "REML", "Dyestuff");
        assert_well_formed(&reml);
        assert!(reml.contains(">REML criterion (-2 log restricted likelihood)<") && reml.contains("least REML criterion "));
    }

    #[test]
    fn the_mark_is_at_the_least_value() {
        let svg = curve(&valley(), "ML", "");
        let dots = circles(&svg, "point");
        assert_eq!(dots.len(), 13);
        assert_eq!(circles(&svg, "least"), [dots[3]]);
        // Downwards in the drawing is towards less.
        assert!(dots.iter().all(|dot| dot.1 <= dots[3].1));
        assert!(svg.contains("least deviance 327.327000 at theta 0.750000<"));
    }

    #[test]
    fn sorted_by_theta() {
        let mut turned = valley();
        turned.reverse();
        assert_eq!(curve(&turned, "ML", "t"), curve(&valley(), "ML", "t"));
        assert!(circles(&curve(&turned, "ML", "t"), "point").windows(2).all(|pair| pair[0].0 < pair[1].0));
    }

    #[test]
    fn everything_is_inside_the_frame() {
        let cases = [(0.0, 0.0), (1.0, 1.0), (0.0, 1e-320), (1e299, -1e299), (1e-300, 5e-324), (327.3, 327.3 + 1e-13), (1e12, 1e12 + 1.0), (-3.0, 1e-9)];
        for (a, b) in cases {
            for pairs in [vec![(a, b)], vec![(a, a), (b, b)], vec![(a, 1.0), (b, 1.0)], vec![(1.0, a), (1.0, b)]] {
                let svg = curve(&points(&pairs), "ML", "");
                assert_well_formed(&svg);
                let dots = circles(&svg, "point");
                assert_eq!(dots.len(), pairs.len());
                assert!(dots.iter().all(|(x, y)| (40.0..=RIGHT).contains(x) && (TOP..=BOTTOM).contains(y)), "{pairs:?} {dots:?}");
            }
        }
    }

    #[test]
    fn one_point_and_constant_values() {
        let one = curve(&points(&[(0.75, 327.3)]), "ML", "");
        assert_eq!(circles(&one, "least"), circles(&one, "point"));
        let flat = curve(&points(&[(0.0, 5.0), (1.0, 5.0), (2.0, 5.0)]), "ML", "");
        // Of equal ones the first is marked.
        assert_eq!(circles(&flat, "least"), circles(&flat, "point")[..1]);
        assert!(circles(&flat, "point").windows(2).all(|pair| pair[0].1 == pair[1].1));
    }

    #[test]
    fn what_is_not_finite_is_left_out() {
        let svg = curve(&points(&[(0.0, f64::NAN), (f64::INFINITY, 1.0), (1.0, f64::MAX), (2.0, 3.0)]), "ML", "");
        assert_well_formed(&svg);
        assert_eq!(circles(&svg, "point").len(), 1);
        let none = curve(&[], "ML", "");
        assert_well_formed(&none);
        assert!(none.contains("no finite value to draw"));
    }

    #[test]
    fn the_title_is_escaped_and_shortened() {
        let svg = curve(&valley(), "ML", "a < b & \"c\" > 'd'\u{1}\n");
        assert_well_formed(&svg);
        assert!(svg.contains("<title>a &lt; b &amp; &quot;c&quot; &gt; &#39;d&#39;  </title>"));
        let long = curve(&valley(), "ML", &"\u{e4}".repeat(100));
        assert!(long.contains(&format!("<title>{}</title>", "\u{e4}".repeat(100))) && long.contains(&format!(">{}...<", "\u{e4}".repeat(78))));
    }

    #[test]
    fn ticks_are_round() {
        assert_eq!(labels(-0.1, 3.1), ["0", "1", "2", "3"]);
        assert_eq!(labels(327.2, 329.1), ["327.5", "328.0", "328.5", "329.0"]);
        assert_eq!(labels(0.0, 1.0), ["0.0", "0.2", "0.4", "0.6", "0.8", "1.0"]);
        assert_eq!(labels(-30.0, 70.0), ["-20", "0", "20", "40", "60"]);
        assert_eq!(labels(1e9, 1.4e9), ["1e9", "1.1e9", "1.2e9", "1.3e9", "1.4e9"]);
        assert_eq!(labels(0.0, 4e-12), ["0", "1e-12", "2e-12", "3e-12", "4e-12"]);
        for i in 1..200 {
            let (digit, _) = round_step(f64::from(i) * 0.37);
            assert!([1, 2, 5].contains(&digit));
            let count = ticks(-1.0, f64::from(i) * 0.37, 5.0).len();
            assert!((2..=7).contains(&count), "{count} ticks");
        }
    }

    /// Long labels get fewer ticks along the foot, and more room at the side.
    #[test]
    fn labels_do_not_overlap() {
        let fine: Vec<(f64, f64)> = (0..9).map(|i| (0.75258 + 1e-8 * f64::from(i), 123456.7 + 1e-4 * f64::from(i))).collect();
        let wide = Axis::new(fine.iter().map(|pair| pair.0), 200.0, RIGHT, |ticks, widest| ticks as f64 * (widest + 2.0 * LETTER) < RIGHT - 200.0);
        assert!(wide.ticks.len() >= 2 && wide.widest() * wide.ticks.len() as f64 <= RIGHT - 200.0);
        assert_well_formed(&curve(&points(&fine), "ML", ""));
    }
}
