//! One page of HTML that stands by itself: the rules with a timeline of hits for each, what was
//! refused and why, and each hit with its surroundings. It has no script and loads nothing.

use std::fs::{self, File};
use std::io::{self, Write};
use std::path::{Path, PathBuf};

use crate::bytes::{counted, grouped, of_log, of_pattern};
use crate::hits::{Beside, Hit, Total};
use crate::notes;
use crate::rules::{self, Refused, Rule};
use crate::show;
use crate::timeline::Timeline;
use crate::words;

/// So many hits of each rule are shown with their surroundings; all are counted.
const KEPT: u64 = 200;

/// The units that a timeline is drawn in.
const WIDTH: f64 = 1000.0;
const HEIGHT: f64 = 28.0;

/// What was found so far.
pub struct Report<'r> {
    rules: &'r [Rule],
    found: Vec<Found>,
    kept: Vec<(usize, Hit)>,
}

/// What was found of one rule.
#[derive(Clone, Default)]
struct Found {
    count: u64,
    first: u64,
    last: u64,
    timeline: Timeline,
}

/// What a page says of where it comes from.
pub struct About<'r> {
    pub log: &'r str,
    pub rules_path: &'r str,
    pub rules_text: &'r [u8],
    pub refused: &'r [Refused],
    pub total: Total,
}

impl<'r> Report<'r> {
    pub fn new(rules: &'r [Rule]) -> Report<'r> {
        Report { rules, found: vec![Found::default(); rules.len()], kept: vec![] }
    }

    pub fn hit(&mut self, hit: &Hit) {
        let Some(place) = self.rules.iter().position(|rule| rule.id == hit.id) else { return };
        let found = &mut self.found[place];
        if found.count == 0 {
            found.first = hit.end;
        }
        found.count += 1;
        found.last = hit.end;
        found.timeline.add(hit.end);
        if found.count <= KEPT {
            self.kept.push((place, hit.clone()));
        }
    }

    /// The page.
    pub fn page(&self, about: &About) -> String {
        let Total { bytes, lines, hits } = about.total;
        let log = escaped(&of_pattern(about.log.as_bytes()));
        let mut page = String::new();
        page.push_str("<!doctype html>\n<html lang=\"en\">\n<head>\n<meta charset=\"utf-8\">\n");
        page.push_str("<meta name=\"viewport\" content=\"width=device-width, initial-scale=1\">\n");
        page.push_str(
            "<meta http-equiv=\"Content-Security-Policy\" \
             content=\"default-src 'none'; style-src 'unsafe-inline'\">\n",
        );
        let count = counted(hits, "hit");
        page.push_str(&format!("<title>{count} in {log}</title>\n<style>\n"));
        page.push_str(include_str!("report.css"));
        page.push_str(&self.filters());
        page.push_str("</style>\n</head>\n<body>\n");
        page.push_str(&format!(
            "<header>\n<h1>{log}</h1>\n<ul class=\"sums\">\n\
             <li><b>{}</b> {}</li>\n<li><b>{}</b> {}</li>\n<li><b>{}</b> bytes</li>\n\
             <li><b>{}</b> {}</li>\n</ul>\n</header>\n",
            grouped(hits),
            if hits == 1 { "hit" } else { "hits" },
            self.rules.len(),
            if self.rules.len() == 1 { "rule" } else { "rules" },
            grouped(bytes),
            grouped(lines),
            if lines == 1 { "line" } else { "lines" },
        ));
        page.push_str(&refusals(about));
        page.push_str(&self.table(about));
        page.push_str(&self.hits(hits));
        page.push_str(&format!(
            "<footer>Made by watcher {} from the rules of {}. Each hit is one end of a match; \
             offsets count bytes from the log's first.</footer>\n</body>\n</html>\n",
            watcher::VERSION,
            escaped(about.rules_path)
        ));
        page
    }

    /// A rule of CSS for each rule: its hits are hidden while its box is not ticked.
    fn filters(&self) -> String {
        let one = |place| {
            format!("body:has(#f{place}:not(:checked)) .hit.r{place} {{ display: none; }}\n")
        };
        (0..self.rules.len()).map(one).collect()
    }

    fn table(&self, about: &About) -> String {
        let mut text = String::from("<section>\n<h2>Rules</h2>\n");
        if self.rules.is_empty() {
            text.push_str("<p>No rule was watched for.</p>\n</section>\n");
            return text;
        }
        text.push_str(
            "<table>\n<thead><tr><th>Rule</th><th>Pattern</th><th class=\"n\">Hits</th>\
             <th>Where in the log</th></tr></thead>\n<tbody>\n",
        );
        for (place, (rule, found)) in self.rules.iter().zip(&self.found).enumerate() {
            text.push_str(&self.row(place, rule, found, about.total.bytes));
        }
        text.push_str(&format!(
            "</tbody>\n<tfoot><tr><td></td><td></td><td></td><td>{}</td></tr></tfoot>\n\
             </table>\n</section>\n",
            axis(about.total.bytes)
        ));
        text
    }

    fn row(&self, place: usize, rule: &Rule, found: &Found, bytes: u64) -> String {
        let pattern = of_pattern(&rule.pattern);
        let name = rule.name();
        let name = if name == pattern {
            String::new()
        } else {
            format!("<span class=\"name\">{}</span> ", escaped(&name))
        };
        let flags = rule.flags_in_words();
        let flags = if flags.is_empty() { flags } else { format!(" <small>{flags}</small>") };
        let note = notes::of_rule(rule, found.count)
            .map_or(String::new(), |note| format!("<br><small>{}</small>", escaped(note)));
        format!(
            "<tr class=\"c{}\"><td><label title=\"show its hits below\"><input type=\"checkbox\" \
             id=\"f{place}\" checked> \
             <span class=\"chip\">{}</span></label></td><td>{name}<code>{}</code>{flags}{note}</td>\
             <td class=\"n\">{}</td><td>{}</td></tr>\n",
            place % 8,
            rule.id,
            escaped(&pattern),
            grouped(found.count),
            self.timeline(place, rule.id, found, bytes)
        )
    }

    /// The timeline of one rule: a bar for each part of the log that has hits, as high as it has
    /// many; a bar leads to the first of its hits that is shown.
    fn timeline(&self, place: usize, id: u32, found: &Found, bytes: u64) -> String {
        let parts = found.timeline.clone().over(bytes);
        let most = parts.iter().map(|&(_, _, count)| count).max().unwrap_or(1);
        let label = match found.count {
            0 => format!("rule {id}: no hits"),
            count => format!(
                "rule {id}: {}, the first ends at {}, the last at {}",
                counted(count, "hit"),
                grouped(found.first),
                grouped(found.last)
            ),
        };
        let mut text = format!(
            "<svg class=\"timeline\" role=\"img\" aria-label=\"{label}\" \
             viewBox=\"0 0 {WIDTH} {HEIGHT}\" preserveAspectRatio=\"none\">\
             <line x1=\"0\" y1=\"{HEIGHT}\" x2=\"{WIDTH}\" y2=\"{HEIGHT}\"/>"
        );
        for (from, to, count) in parts {
            let scale = WIDTH / bytes.max(1) as f64;
            let width = ((to - from) as f64 * scale).max(4.0);
            let x = (from as f64 * scale).min(WIDTH - width);
            let height = HEIGHT * (0.3 + 0.7 * count as f64 / most as f64);
            let bar = format!(
                "<rect x=\"{x:.1}\" y=\"{:.1}\" width=\"{width:.1}\" height=\"{height:.1}\">\
                 <title>{} in bytes {} to {}</title></rect>",
                HEIGHT - height,
                counted(count, "hit"),
                grouped(from),
                grouped(to)
            );
            let shown = self
                .kept
                .iter()
                .position(|(rule, hit)| *rule == place && from < hit.end && hit.end <= to);
            match shown {
                Some(number) => text.push_str(&format!("<a href=\"#h{}\">{bar}</a>", number + 1)),
                None => text.push_str(&bar),
            }
        }
        text.push_str("</svg>");
        text
    }

    fn hits(&self, hits: u64) -> String {
        let mut text = String::from("<section>\n<h2>Hits</h2>\n");
        if hits == 0 {
            text.push_str("<p>None.</p>\n");
        }
        if hits > self.kept.len() as u64 {
            text.push_str(&format!(
                "<p>The first {KEPT} of each rule are shown here, {} of {}; the timelines have all \
                 of them.</p>\n",
                grouped(self.kept.len() as u64),
                grouped(hits)
            ));
        }
        text.push_str("<ol class=\"hits\">\n");
        for (number, (place, hit)) in self.kept.iter().enumerate() {
            text.push_str(&self.one(number + 1, *place, hit));
        }
        text.push_str("</ol>\n</section>\n");
        text
    }

    fn one(&self, number: usize, place: usize, hit: &Hit) -> String {
        let show::Parts { before, matched, after } = show::parts(hit);
        let start = hit
            .start
            .map_or(String::new(), |start| format!("starts at <b>{}</b>, ", grouped(start)));
        format!(
            "<li class=\"hit r{place} c{}\" id=\"h{number}\"><p><span class=\"chip\">{}</span> {} \
             <span class=\"place\">line <b>{}</b>, byte {}; {start}ends at <b>{}</b></span></p>\
             <pre>{}{}<mark>{}</mark>{}{}</pre></li>\n",
            place % 8,
            hit.id,
            escaped(&self.rules[place].name()),
            grouped(hit.line),
            grouped(hit.column),
            grouped(hit.end),
            above(&hit.around.above),
            escaped(&before),
            escaped(&matched),
            escaped(&after),
            below(&hit.around.below)
        )
    }
}

/// The line above, of which the end is shown if it is long, and what parts it from the hit's.
fn above(line: &Option<Beside>) -> String {
    line.as_ref().map_or(String::new(), |line| {
        let cut = if line.cut { "…" } else { "" };
        format!("<span class=\"beside\">{cut}{}</span>\n", escaped(&of_log(&line.bytes, 0)))
    })
}

/// The line below, of which the start is shown.
fn below(line: &Option<Beside>) -> String {
    line.as_ref().map_or(String::new(), |line| {
        let cut = if line.cut { "…" } else { "" };
        format!("\n<span class=\"beside\">{}{cut}</span>", escaped(&of_log(&line.bytes, 0)))
    })
}

/// The refused lines in words, with the caret under the place.
fn refusals(about: &About) -> String {
    if about.refused.is_empty() {
        return String::new();
    }
    let lines = rules::lines(about.rules_text);
    let count = counted(about.refused.len() as u64, "rule");
    let mut text = format!("<section class=\"refused\">\n<h2>{count} refused</h2>\n<ul>\n");
    for &one in about.refused {
        let told = words::tell(&lines, about.refused, one);
        let hint = told.hint.map_or(String::new(), |hint| format!("<p>{}</p>", escaped(&hint)));
        text.push_str(&format!(
            "<li><p>Line {}, refusal {}: {}.</p><pre>{}\n{}^</pre>{hint}</li>\n",
            one.line,
            one.number,
            escaped(told.text),
            escaped(&told.line),
            " ".repeat(told.caret)
        ));
    }
    text.push_str("</ul>\n");
    if let Some(why) = words::of_the_file(about.rules_text, about.refused) {
        why.lines().for_each(|line| text.push_str(&format!("<p>{}</p>\n", escaped(line))));
    }
    text.push_str("</section>\n");
    text
}

/// The offsets under the timelines.
fn axis(bytes: u64) -> String {
    let ticks: Vec<String> = (0..=4)
        .map(|quarter| format!("<span>{}</span>", grouped(quarter_of(bytes, quarter))))
        .collect();
    format!("<div class=\"axis\">{}</div>", ticks.concat())
}

fn quarter_of(bytes: u64, quarter: u64) -> u64 {
    (u128::from(bytes) * u128::from(quarter) / 4) as u64
}

/// Text for HTML, also within an attribute.
fn escaped(text: &str) -> String {
    let mut out = String::with_capacity(text.len());
    for c in text.chars() {
        match c {
            '&' => out.push_str("&amp;"),
            '<' => out.push_str("&lt;"),
            '>' => out.push_str("&gt;"),
            '"' => out.push_str("&quot;"),
            '\'' => out.push_str("&#39;"),
            _ => out.push(c),
        }
    }
    out
}

/// Writes the page whole or not at all: into a file beside it, which then takes its name. A device or
/// a pipe is written to as it is.
pub fn write(path: &Path, page: &str) -> io::Result<()> {
    if fs::metadata(path).is_ok_and(|about| !about.is_file()) {
        return File::options().write(true).open(path)?.write_all(page.as_bytes());
    }
    let beside = beside(path)?;
    let done = whole(&beside, page).and_then(|()| fs::rename(&beside, path));
    if done.is_err() {
        let _ = fs::remove_file(&beside);
    }
    done
}

fn whole(path: &Path, page: &str) -> io::Result<()> {
    let mut file = File::create(path)?;
    file.write_all(page.as_bytes())?;
    file.sync_all()
}

/// A name in the same folder that nobody else has.
fn beside(path: &Path) -> io::Result<PathBuf> {
    let name = path.file_name().ok_or(io::ErrorKind::InvalidInput)?;
    let name = format!(".{}.{}", name.to_string_lossy(), std::process::id());
    Ok(path.with_file_name(name))
}

#[cfg(test)]
mod tests {
    use super::*;
    use crate::hits::Around;

    fn rules() -> Vec<Rule> {
        vec![
            Rule { id: 1, flags: 1, pattern: b"<slack>".to_vec() },
            Rule { id: 2, flags: 0, pattern: b"(?#a & b)never".to_vec() },
        ]
    }

    fn hit(end: u64) -> Hit {
        let bytes = b"<script>\"slack\"</script>".to_vec();
        let above = Some(Beside { bytes: b"<i>".to_vec(), cut: true });
        let (from, below) = (end - 14, None);
        let around = Around { bytes, from, cut_before: false, cut_after: false, above, below };
        Hit { id: 1, end, start: None, line: 2, column: 14, around }
    }

    fn page(hits: &[Hit]) -> String {
        let rules = rules();
        let mut report = Report::new(&rules);
        hits.iter().for_each(|hit| report.hit(hit));
        let refused = [Refused { line: 3, number: 10, place: 2 }];
        let total = Total { bytes: 10_000, lines: 9, hits: hits.len() as u64 };
        let text = b"1 1 <slack>\n2 0 never\n8 0 a**<\n";
        report.page(&About {
            log: "a<b>.txt",
            rules_path: "mine/rules.txt",
            rules_text: text,
            refused: &refused,
            total,
        })
    }

    #[test]
    fn nothing_of_a_log_or_a_rule_becomes_markup() {
        let page = page(&[hit(20), hit(9_000)]);
        assert!(
            !page.contains("<script") && !page.contains("<slack>") && !page.contains("<b>.txt")
        );
        assert!(page.contains("&lt;script&gt;&quot;slac<mark>k</mark>&quot;&lt;/script&gt;"));
        assert!(page.contains("a &amp; b"));
        assert!(page.contains("<span class=\"beside\">…&lt;i&gt;</span>\n"));
    }

    #[test]
    fn rules_refusals_timelines_and_hits_are_there() {
        let page = page(&[hit(20), hit(9_000)]);
        assert_eq!(page.matches("<svg ").count(), 2);
        assert_eq!(page.matches("<rect ").count(), 2);
        assert_eq!(page.matches("class=\"hit r0 c0\"").count(), 2);
        assert!(page.contains("Line 3, refusal 10: a quantifier with nothing to repeat."));
        assert!(page.contains("<pre>8 0 a**&lt;\n      ^</pre>"));
        assert!(page.contains("href=\"#h2\""));
    }

    #[test]
    fn a_page_is_of_bounded_length() {
        let hits: Vec<Hit> = (0..5_000).map(|n| hit(20 + n)).collect();
        let page = page(&hits);
        assert_eq!(page.matches("class=\"hit r0 c0\"").count(), KEPT as usize);
        assert!(page.contains("200 of 5,000"));
    }

    #[test]
    fn each_page_loads_nothing() {
        let page = page(&[hit(20)]);
        for loading in ["http:", "https:", "src=", "url(", "@import", "<link", "<script"] {
            assert!(!page.contains(loading), "{loading}");
        }
    }
}
