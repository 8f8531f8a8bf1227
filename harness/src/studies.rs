//! Studies and drawn trees written as hexadecimal text: blanks do not count, and a `#` starts a comment.
use std::fs;
use std::path::{Path, PathBuf};

/// Two components, which fail at 0.1 and 0.2, and one load, which is lost when either fails.
pub const CASE_A: &str =
    "02 01 01  02 00E1F505  02 00C2EB0B  02 02 0002 0102  07 00 64000000 3C000000";

/// A study of the folder `studies`, and what stands beside it.
pub struct Written {
    pub name: String,
    pub bytes: Vec<u8>,
    pub report: String,
    /// A tree that means what its gates mean, where one was drawn.
    pub tree: Option<Vec<u8>>,
}

impl Written {
    /// Whether it is a sound study, by its report.
    pub fn opens(&self) -> bool {
        !self.report.starts_with("REFUSED")
    }
}

/// The bytes of a commented hexadecimal text.
pub fn from_hexadecimal(text: &str) -> Vec<u8> {
    let lines = text
        .lines()
        .map(|line| line.split('#').next().unwrap_or(""));
    let digits: Vec<u32> = lines
        .flat_map(str::chars)
        .filter(|c| !c.is_whitespace())
        .map(|c| c.to_digit(16).expect("a hexadecimal digit"))
        .collect();
    assert!(digits.len().is_multiple_of(2), "half a byte is missing");
    digits
        .chunks(2)
        .map(|pair| (pair[0] * 16 + pair[1]) as u8)
        .collect()
}

/// The same text without comments, on one line.
pub fn to_hexadecimal(bytes: &[u8]) -> String {
    let each: Vec<String> = bytes.iter().map(|byte| format!("{byte:02X}")).collect();
    each.join(" ")
}

fn written(path: PathBuf) -> Written {
    let text = fs::read_to_string(&path).expect("a study");
    let report = fs::read_to_string(path.with_extension("report")).expect("its report");
    let tree = path.with_extension("tree");
    let drawn = tree
        .exists()
        .then(|| fs::read_to_string(tree).expect("its tree"));
    Written {
        name: path.display().to_string(),
        bytes: from_hexadecimal(&text),
        report,
        tree: drawn.map(|text| from_hexadecimal(&text)),
    }
}

/// The files of the folder with this ending.
pub fn files(ending: &str) -> Vec<PathBuf> {
    let folder = Path::new(env!("CARGO_MANIFEST_DIR")).join("../studies");
    let all = fs::read_dir(folder).expect("the folder of studies");
    all.map(|file| file.expect("a file").path())
        .filter(|path| path.extension().is_some_and(|end| end == ending))
        .collect()
}

/// All studies of the folder.
pub fn all() -> Vec<Written> {
    files("hex").into_iter().map(written).collect()
}
