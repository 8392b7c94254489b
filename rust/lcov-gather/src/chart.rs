//! A drawing of the lines hit and found over the builds, as SVG by itself: no script, no font and no other file is named in it.
//!
//! What is hit and what is found differ in line and mark, not in colour alone.

use crate::counts::Count;
use crate::shown::shown;
use crate::table::percent;
use crate::windows::Build;
use std::iter;

// All lengths are in pixels.
const WIDTH: f64 = 800.0;
const HEIGHT: f64 = 480.0;

// What is drawn lies between these.
const LEFT: f64 = 90.0;
const RIGHT: f64 = WIDTH - 20.0;
const TOP: f64 = 60.0;
const BOTTOM: f64 = HEIGHT - 184.0;

/// Builds that are nearer to each other have no marks, since these would cover the lines.
const MARK: f64 = 12.0;

// So far apart are names and shares, so that none covers the next.
const NAME: f64 = 17.0;
const SHARE: f64 = 46.0;

/// The longest name below the drawing. Its letters have one width, so that it does not pass the edge.
const LETTERS: usize = 28;

/// The most steps of the scale.
const STEPS: u64 = 5;

// Colours that are dark in grey too, and that the colour-blind tell apart.
const HIT: &str = "#0072b2";
const FOUND: &str = "#b34700";

// The dashes of a line, as SVG has them.
const SOLID: &str = "none";
const DASHED: &str = "6 3";

/// The builds in order, each with the lines of so many builds at most.
pub fn draw(builds: &[Build], width: usize) -> String {
    let chart = Chart::of(builds);
    let title = match width {
        1 => "Lines hit and found in each build".to_owned(),
        _ => format!(
            "Lines hit and found in each build and the up to {} before it",
            width - 1
        ),
    };
    let parts = [
        chart.scale(),
        chart.curve(HIT, SOLID, |lines| lines.hit),
        chart.curve(FOUND, DASHED, |lines| lines.found),
        (0..builds.len()).map(|place| chart.build(place)).collect(),
        legend(&title),
    ];
    format!(
        "<svg xmlns=\"http://www.w3.org/2000/svg\" width=\"{WIDTH}\" height=\"{HEIGHT}\" \
         viewBox=\"0 0 {WIDTH} {HEIGHT}\" font-family=\"sans-serif\" font-size=\"11\" fill=\"#222\">\n\
         <title>{title}</title>\n\
         <rect width=\"{WIDTH}\" height=\"{HEIGHT}\" fill=\"#fff\"/>\n\
         {}</svg>\n",
        parts.concat()
    )
}

struct Chart<'a> {
    builds: &'a [Build<'a>],
    /// From one build to the next.
    apart: f64,
    /// The scale: so many steps of so many lines.
    steps: u64,
    step: u64,
}

impl<'a> Chart<'a> {
    fn of(builds: &'a [Build<'a>]) -> Self {
        let most = builds.iter().map(|build| build.lines.found).max();
        let most = most.unwrap_or(0);
        let step = step_for(most);
        Chart {
            builds,
            apart: (RIGHT - LEFT) / builds.len().max(1) as f64,
            steps: most.div_ceil(step).max(1),
            step,
        }
    }

    fn x(&self, place: usize) -> f64 {
        LEFT + self.apart * (place as f64 + 0.5)
    }

    fn y(&self, lines: u64) -> f64 {
        let share = lines as f64 / (self.step as f64 * self.steps as f64);
        BOTTOM - share * (BOTTOM - TOP)
    }

    /// Numbers at the left, and a line for each.
    fn scale(&self) -> String {
        let mut lines = String::new();
        for step in 0..=self.steps {
            let number = step.saturating_mul(self.step);
            let y = self.y(number);
            let colour = if step == 0 { "#222" } else { "#ccc" };
            lines += &format!(
                "<path d=\"M{LEFT} {y:.1}H{RIGHT}\" stroke=\"{colour}\"/>\n\
                 <text x=\"{:.1}\" y=\"{:.1}\" text-anchor=\"end\">{number}</text>\n",
                LEFT - 8.0,
                y + 4.0
            );
        }
        lines
    }

    fn curve(&self, colour: &str, dashes: &str, number: impl Fn(Count) -> u64) -> String {
        let points = self.builds.iter().enumerate().map(|(place, build)| {
            let (x, y) = (self.x(place), self.y(number(build.lines)));
            format!("{x:.1},{y:.1}")
        });
        let points: Vec<String> = points.collect();
        let points = points.join(" ");
        format!(
            "<polyline points=\"{points}\" fill=\"none\"{}/>\n",
            stroke(colour, dashes)
        )
    }

    /// A reader who points at a build sees its full name and its numbers.
    fn build(&self, place: usize) -> String {
        let Build { name, lines } = self.builds[place];
        let (x, name) = (self.x(place), shown(name));
        let share = percent(lines.share());
        let mut drawn = format!(
            "<g><title>{}: {lines}, {share}</title>\
             <rect x=\"{:.1}\" y=\"{TOP}\" width=\"{:.1}\" height=\"{:.1}\" fill=\"none\" pointer-events=\"all\"/>",
            escaped(&name),
            x - self.apart / 2.0,
            self.apart,
            BOTTOM - TOP
        );
        if self.apart >= MARK {
            drawn += &found_mark(x, self.y(lines.found));
            drawn += &hit_mark(x, self.y(lines.hit));
        }
        if self.has_room(place, SHARE) {
            let y = BOTTOM + 15.0;
            drawn += &format!("<text x=\"{x:.1}\" y=\"{y}\" text-anchor=\"middle\">{share}</text>");
        }
        if self.has_room(place, NAME) {
            let (x, y) = (x + 4.0, BOTTOM + 28.0);
            drawn += &format!(
                "<text transform=\"translate({x:.1} {y})rotate(-60)\" text-anchor=\"end\" font-family=\"monospace\" font-size=\"10\">{}</text>",
                escaped(&shortened(&name))
            );
        }
        drawn + "</g>\n"
    }

    /// Of texts that need so much room each, as many as there is room for; the last build has one.
    fn has_room(&self, place: usize, room: f64) -> bool {
        let each = (room / self.apart).ceil().max(1.0) as usize;
        (self.builds.len() - 1 - place).is_multiple_of(each)
    }
}

fn stroke(colour: &str, dashes: &str) -> String {
    format!(" stroke=\"{colour}\" stroke-width=\"2\" stroke-dasharray=\"{dashes}\"")
}

fn hit_mark(x: f64, y: f64) -> String {
    format!("<circle cx=\"{x:.1}\" cy=\"{y:.1}\" r=\"3\" fill=\"{HIT}\"/>")
}

fn found_mark(x: f64, y: f64) -> String {
    let (left, top) = (x - 4.0, y - 4.0);
    format!("<rect x=\"{left:.1}\" y=\"{top:.1}\" width=\"8\" height=\"8\" fill=\"#fff\" stroke=\"{FOUND}\"/>")
}

fn legend(title: &str) -> String {
    let sample = |x: f64, stroke: String, mark: fn(f64, f64) -> String, what: &str| {
        let (mark, after) = (mark(x + 20.0, 38.0), x + 48.0);
        format!(
            "<path d=\"M{x} 38h40\"{stroke}/>{mark}<text x=\"{after}\" y=\"42\">{what}</text>\n"
        )
    };
    let (found, shares) = (LEFT + 120.0, LEFT + 260.0);
    [
        format!("<text x=\"{LEFT}\" y=\"22\" font-size=\"14\">{title}</text>\n"),
        sample(LEFT, stroke(HIT, SOLID), hit_mark, "lines hit"),
        sample(found, stroke(FOUND, DASHED), found_mark, "lines found"),
        format!("<text x=\"{shares}\" y=\"42\">percent: lines hit of those found</text>\n"),
    ]
    .concat()
}

/// 1, 2 or 5 times a power of ten.
fn step_for(most: u64) -> u64 {
    let powers = iter::successors(Some(1_u64), |power| power.checked_mul(10));
    let mut steps = powers.flat_map(|power| [1, 2, 5].map(|times| power.saturating_mul(times)));
    let step = steps.find(|&step| most.div_ceil(step) <= STEPS);
    step.expect("five times the greatest step is more than any number")
}

/// The end of a name tells it apart from others in its folder. A letter that is not ASCII may be twice as wide.
fn shortened(name: &str) -> String {
    let width = |letter: char| if letter.is_ascii() { 1 } else { 2 };
    let mut room = LETTERS;
    let fits = |letter: &char| {
        let left = room.checked_sub(width(*letter));
        room = left.unwrap_or(0);
        left.is_some()
    };
    let end: Vec<char> = name.chars().rev().take_while(fits).collect();
    let end: String = end.into_iter().rev().collect();
    match end.len() == name.len() {
        true => end,
        false => format!("\u{2026}{end}"),
    }
}

/// For text and for attributes. XML has no letters U+FFFE and U+FFFF, not even as numbers.
fn escaped(text: &str) -> String {
    let mut escaped = String::with_capacity(text.len());
    for letter in text.chars() {
        match letter {
            '&' => escaped += "&amp;",
            '<' => escaped += "&lt;",
            '>' => escaped += "&gt;",
            '"' => escaped += "&quot;",
            '\'' => escaped += "&apos;",
            '\u{fffe}' | '\u{ffff}' => escaped.push('\u{fffd}'),
            _ => escaped.push(letter),
        }
    }
    escaped
}

#[cfg(test)]
mod tests {
    use super::*;

    fn build(name: &str, hit: u64, found: u64) -> Build<'_> {
        Build {
            name: name.as_bytes(),
            lines: Count { hit, found },
        }
    }

    #[test]
    fn a_scale_has_round_steps_and_holds_all() {
        for (most, step, steps) in [
            (0, 1, 1),
            (1, 1, 1),
            (5, 1, 5),
            (6, 2, 3),
            (11, 5, 3),
            (26, 10, 3),
            (1_000, 200, 5),
            (1_001, 500, 3),
            (u64::MAX, 5_000_000_000_000_000_000, 4),
        ] {
            let builds = [build("a", 0, most), build("b", 0, 0)];
            let chart = Chart::of(&builds);
            assert_eq!((chart.step, chart.steps), (step, steps), "{most}");
            assert!(chart.y(most) >= TOP && chart.y(0) == BOTTOM, "{most}");
        }
    }

    #[test]
    fn both_curves_have_a_point_for_each_build() {
        let drawn = draw(&[build("a", 1, 2), build("b", 2, 2)], 1);
        let curves: Vec<&str> = drawn.split("points=\"").skip(1).collect();
        assert_eq!(curves.len(), 2);
        assert!(curves[0].starts_with("262.5,178.0 607.5,60.0\""), "{drawn}");
        assert!(curves[1].starts_with("262.5,60.0 607.5,60.0\""), "{drawn}");
    }

    #[test]
    fn builds_lie_apart_and_the_last_one_has_texts() {
        for many in [1, 2, 15, 16, 41, 42, 200, 500] {
            let builds = vec![build("a", 1, 2); many];
            let chart = Chart::of(&builds);
            assert!(chart.x(0) > LEFT && chart.x(many - 1) < RIGHT);
            for room in [NAME, SHARE] {
                let with: Vec<usize> = (0..many).filter(|&k| chart.has_room(k, room)).collect();
                assert_eq!(with.last(), Some(&(many - 1)));
                let is_free = |pair: &[usize]| chart.x(pair[1]) - chart.x(pair[0]) >= room;
                assert!(with.windows(2).all(is_free), "{many}");
                assert!(with.len() >= many.min(8), "{many}");
            }
        }
    }

    #[test]
    fn a_long_name_keeps_its_end() {
        let name = "labs/rooms/a/2026-11-17.info";
        assert_eq!(shortened(name), name);
        assert_eq!(shortened(&format!("/{name}")), format!("\u{2026}{name}"));
        let wide = "\u{4e2d}".repeat(15);
        assert_eq!(shortened(&wide), format!("\u{2026}{}", &wide[3..]));
        assert_eq!(shortened(""), "");
    }

    #[test]
    fn no_letter_ends_a_text_or_is_unknown_to_xml() {
        assert_eq!(
            escaped("a<b>&\"c' d\u{e9}"),
            "a&lt;b&gt;&amp;&quot;c&apos; d\u{e9}"
        );
        assert_eq!(escaped("\u{fffe}\u{ffff}\u{fffd}"), "\u{fffd}".repeat(3));
    }

    #[test]
    fn no_builds_and_no_lines_are_drawn_too() {
        let none = draw(&[], 1);
        assert!(none.contains("<title>Lines hit and found in each build</title>"));
        let empty = draw(&[build("a", 0, 0)], 16);
        assert!(empty.contains("<title>a: 0/0, -</title>"), "{empty}");
        assert!(
            empty.contains("and the up to 15 before it</title>"),
            "{empty}"
        );
        for drawn in [none, empty] {
            assert!(!drawn.contains("NaN") && !drawn.contains("inf"), "{drawn}");
        }
    }
}
