//! What is given of a study, by the library or by the second implementation, in one form.
use harness::asked::{Asked, Everything};
use harness::reference::bounds::{bounded_paths, class_bounds, load_bounds, Bounds};
use harness::reference::figures::{figures, Figures};
use harness::reference::losses::Meaning;
use harness::reference::paths::Path;
use harness::reference::study::Study;

pub struct Given {
    pub paths: Vec<(Path, Bounds)>,
    pub classes: Vec<(u8, Bounds)>,
    pub loads: Vec<Bounds>,
    /// Or the number by which they are refused.
    pub figures: Result<Figures, u8>,
}

/// Bounds from a slice for lower and one for upper ones.
fn pairs([lower, upper]: &[Vec<u64>; 2]) -> impl Iterator<Item = Bounds> + '_ {
    let both = lower.iter().zip(upper);
    both.map(|(&lower, &upper)| Bounds { lower, upper })
}

/// The figures as the library gives them: nothing else here knows how it does.
fn given_figures(everything: &Everything) -> Result<Figures, u8> {
    let (stated, given) = everything.figures;
    stated.map(|stated| Figures {
        saifi: given.saifi,
        saidi: given.saidi,
        caidi: (stated == 4).then_some(given.caidi),
        maifi: given.maifi,
    })
}

/// What the library gives.
pub fn by_the_library(study: &Study, asked: Asked) -> Given {
    let everything = asked.everything();
    let (listed, list) = &everything.list;
    let (bounded, path_places) = &everything.paths;
    let (totalled, class_places) = &everything.classes;
    assert!(listed.is_ok() && bounded == listed && *totalled == Ok(0));
    let entries = list.chunks(study.components.len() + 1);
    let loads = everything.loads.iter().map(|&(answer, [lower, upper])| {
        assert_eq!(answer, Ok(0));
        Bounds { lower, upper }
    });
    Given {
        paths: entries
            .map(Path::of_entry)
            .zip(pairs(path_places))
            .collect(),
        classes: (0..=255).zip(pairs(class_places)).collect(),
        loads: loads.collect(),
        figures: given_figures(&everything),
    }
}

/// What the second implementation gives.
pub fn by_the_second(study: &Study, asked: Asked) -> Given {
    let meaning = Meaning::of(study, asked.tree).expect("a tree that keeps the rules");
    let paths = bounded_paths(study, &meaning);
    let loads = 0..study.loads.len();
    Given {
        classes: class_bounds(&paths).into_iter().collect(),
        loads: loads.map(|load| load_bounds(&paths, load)).collect(),
        figures: figures(study, &paths),
        paths,
    }
}
