//! The text of the report program.
use super::bounds::{bounded_paths, class_bounds, load_bounds, Bounds};
use super::figures::figures;
use super::losses::Meaning;
use super::opening::open;
use super::paths::Path;
use super::refusals::word;
use super::study::Study;
use std::fmt;

impl fmt::Display for Bounds {
    fn fmt(&self, line: &mut fmt::Formatter) -> fmt::Result {
        write!(line, "{} {}", self.lower, self.upper)
    }
}

impl fmt::Display for Path {
    fn fmt(&self, line: &mut fmt::Formatter) -> fmt::Result {
        for mark in &self.marks {
            match mark {
                Some(state) => write!(line, "{state}")?,
                None => write!(line, "-")?,
            }
        }
        write!(line, " {}", self.class)
    }
}

fn figure_lines(study: &Study, list: &[(Path, Bounds)]) -> String {
    match figures(study, list) {
        Err(number) => format!("INDICES {number}\n"),
        Ok(figures) => {
            let caidi = match figures.caidi {
                Some(bounds) => bounds.to_string(),
                None => "none".to_string(),
            };
            format!(
                "SAIFI {}\nSAIDI {}\nCAIDI {caidi}\nMAIFI {}\n",
                figures.saifi, figures.saidi, figures.maifi
            )
        }
    }
}

fn study_report(study: &Study) -> String {
    let list = bounded_paths(study, &Meaning::Gates);
    let mut text = format!("PATHS {}\n", list.len());
    for (path, bounds) in &list {
        text += &format!("P {path} {bounds}\n");
    }
    for (class, bounds) in class_bounds(&list) {
        text += &format!("K {class} {bounds}\n");
    }
    for load in 0..study.loads.len() {
        text += &format!("L {load} {}\n", load_bounds(&list, load));
    }
    text + &figure_lines(study, &list)
}

pub fn report(bytes: &[u8]) -> String {
    match open(bytes) {
        Ok(study) => study_report(&study),
        Err(number) => format!("REFUSED {number} {}\n", word(number)),
    }
}
