//! The calls that are compared, and by which numbers of the refusal table each can be refused.
use std::fmt;

/// What an image can be asked by its gates, and by a tree that is drawn in their place.
#[derive(Clone, Copy, PartialEq)]
pub enum Question {
    ListPaths,
    PathBounds,
    ClassBounds,
    LoadBounds,
    Figures,
}

#[derive(Clone, Copy, PartialEq)]
pub enum Call {
    Open,
    SetProbabilities,
    SetCustomers,
    SetMinutes,
    Write,
    Gates(Question),
    Drawn(Question),
    Survival,
    LoadsLost,
    Report,
    RefusalWord,
}

use Call::*;
use Question::*;

/// Every call once.
pub const CALLS: [Call; 19] = [
    Open,
    SetProbabilities,
    SetCustomers,
    SetMinutes,
    Write,
    Gates(ListPaths),
    Gates(PathBounds),
    Gates(ClassBounds),
    Gates(LoadBounds),
    Gates(Figures),
    Drawn(ListPaths),
    Drawn(PathBounds),
    Drawn(ClassBounds),
    Drawn(LoadBounds),
    Drawn(Figures),
    Survival,
    LoadsLost,
    Report,
    RefusalWord,
];

impl Call {
    /// Its row of the table: the numbers by which it can be refused, in the order in which they are judged.
    pub fn refusals(self) -> &'static [u8] {
        match self {
            // 18 where the image does not fit.
            Open => &[1, 2, 3, 4, 5, 6, 7, 8, 9, 10, 11, 12, 13, 14, 15, 18],
            SetProbabilities => &[16, 17, 5, 6],
            SetCustomers | SetMinutes => &[16, 17, 14],
            Write | Gates(ListPaths | PathBounds | ClassBounds) => &[16, 18],
            Gates(LoadBounds) => &[16, 17],
            Gates(Figures) => &[16, 19],
            Drawn(ListPaths | PathBounds | ClassBounds) => &[16, 20, 21, 22, 18],
            Drawn(LoadBounds) => &[16, 17, 20, 21, 22],
            Drawn(Figures) => &[16, 20, 21, 22, 19],
            Survival => &[23],
            LoadsLost => &[],
            // 18 of a report where the text is too short, or a slice beside it.
            Report | RefusalWord => &[18],
        }
    }

    /// Whether it can be refused by a number.
    pub fn can_give(self, number: u8) -> bool {
        self.refusals().contains(&number)
    }
}

impl fmt::Display for Question {
    fn fmt(&self, line: &mut fmt::Formatter) -> fmt::Result {
        line.write_str(match self {
            ListPaths => "list_paths",
            PathBounds => "path_bounds",
            ClassBounds => "class_bounds",
            LoadBounds => "load_bounds",
            Figures => "figures",
        })
    }
}

impl fmt::Display for Call {
    fn fmt(&self, line: &mut fmt::Formatter) -> fmt::Result {
        line.write_str(match self {
            Open => "open",
            SetProbabilities => "set_probabilities",
            SetCustomers => "set_customers",
            SetMinutes => "set_minutes",
            Write => "write",
            Gates(question) => return write!(line, "{question}"),
            Drawn(question) => return write!(line, "drawn_{question}"),
            Survival => "survival",
            LoadsLost => "loads_lost",
            Report => "report",
            RefusalWord => "refusal_word",
        })
    }
}
