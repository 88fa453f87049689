//! Hits with their surroundings, on standard output or as a page or both.

use std::cell::RefCell;
use std::collections::HashMap;
use std::io::{self, BufWriter, Stdout};
use std::path::Path;

use crate::args::Looking;
use crate::bytes::counted;
use crate::colour::{Colour, When};
use crate::hits::{self, Failure, Hit, Total, Wish};
use crate::input::Log;
use crate::progress::Progress;
use crate::report::{self, About, Report};
use crate::rules::{self, NoRules, Rules};
use crate::said::{error_text, Said};
use crate::show::Show;
use crate::{failed, put, Status};

/// Scans a log under the rules of a directory, and shows what it finds.
pub fn look(dir: &Path, log: Option<&Path>, looking: &Looking, when: When, said: &Said) -> Status {
    let path = rules::path(dir).display().to_string();
    let read = rules::read(dir);
    said.say_rules(&path, &read);
    let no_rules = match read {
        Err(NoRules::TooLong) => return Status::Failed,
        Err(NoRules::Unread(_)) => true,
        Ok(_) => false,
    };
    let text = read.unwrap_or_default();
    let rules = rules::add(&text);
    said.say_refused(&path, &text, &rules);
    let mut log = match crate::log(log, said) {
        Ok(log) => log,
        Err(status) => return status,
    };
    let name = log.name.clone();
    let mut found = Found::new(looking, when, &name, &rules);
    let total = match found.scan(&rules, &mut log, said) {
        Ok(total) => total,
        Err(failure) => return failed(&failure, &name, said),
    };
    if let (Some(page), Some(to)) = (&found.page, &looking.report) {
        let (rules_path, rules_text, refused) = (&path[..], &text[..], &rules.refused[..]);
        let about = About { log: &name, rules_path, rules_text, refused, total };
        if let Err(status) = put_page(to, &page.page(&about), said) {
            return status;
        }
        said.say(&format!("{} in {}", counted(total.hits, "hit"), to.display()));
    }
    if no_rules {
        return Status::Failed;
    }
    Status::of_hits(total.hits)
}

/// What was found, and where it goes.
struct Found<'r> {
    counts: HashMap<u32, u64>,
    show: Option<Show<'r, BufWriter<Stdout>>>,
    page: Option<Report<'r>>,
}

impl<'r> Found<'r> {
    fn new(looking: &Looking, when: When, log: &'r str, rules: &'r Rules) -> Found<'r> {
        let out = io::stdout();
        let colour = Colour::of(when, &out);
        let rules = &rules.accepted[..];
        let show = looking.show.then(|| Show { out: BufWriter::new(out), colour, log, rules });
        let page = looking.report.as_ref().map(|_| Report::new(rules));
        Found { counts: HashMap::new(), show, page }
    }

    fn scan(&mut self, rules: &Rules, log: &mut Log, said: &Said) -> Result<Total, Failure> {
        let wish = if self.page.is_some() { Wish::Lines } else { Wish::Line };
        let progress = RefCell::new(Progress::new(log.length));
        let give = |hit| {
            if self.show.is_some() {
                progress.borrow_mut().clear();
            }
            self.hit(&hit)
        };
        let so_far = |total: Total| progress.borrow_mut().tell(&said.name, total.bytes, total.hits);
        let total = hits::of_log(rules, &mut log.file, wish, give, so_far);
        progress.borrow_mut().clear();
        let total = total?;
        if let Some(show) = &mut self.show {
            let count = |id| self.counts.get(&id).copied().unwrap_or(0);
            show.end(total, count).map_err(Failure::Given)?;
        }
        Ok(total)
    }

    fn hit(&mut self, hit: &Hit) -> io::Result<()> {
        *self.counts.entry(hit.id).or_default() += 1;
        if let Some(page) = &mut self.page {
            page.hit(hit);
        }
        match &mut self.show {
            Some(show) => show.hit(hit),
            None => Ok(()),
        }
    }
}

/// Writes the page to a file, or to standard output for `-`.
fn put_page(to: &Path, page: &str, said: &Said) -> Result<(), Status> {
    if to == Path::new("-") {
        return put(page, said);
    }
    report::write(to, page).map_err(|error| {
        said.say(&format!("{}: {}; no page was written", to.display(), error_text(&error)));
        Status::Failed
    })
}
