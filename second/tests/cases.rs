//! The cases of `tests/tagrun`, which the program `tagrun` is held against,
//! are what this program says.

mod common;

use std::fs;
use std::path::Path;

use common::hex;
use second::fast::Fast;
use second::grain::Grain;
use second::tagrun::run;

/// The digits of a case's input: `#` starts a comment.
fn digits(text: &str) -> String {
    text.lines().map(|line| line.split('#').next().unwrap_or("")).collect()
}

#[test]
fn every_case() {
    let folder = Path::new(env!("CARGO_MANIFEST_DIR")).join("../tests/tagrun");
    let mut cases = 0;
    for entry in fs::read_dir(folder).unwrap() {
        let path = entry.unwrap().path();
        if path.extension().is_none_or(|extension| extension != "hex") {
            continue;
        }
        let input = hex(&digits(&fs::read_to_string(&path).unwrap()));
        let printed = fs::read_to_string(path.with_extension("txt")).unwrap();
        assert_eq!(run::<Fast>(&input), printed, "{}", path.display());
        assert_eq!(run::<Grain>(&input), printed, "{}", path.display());
        cases += 1;
    }
    assert!(cases > 0);
}
