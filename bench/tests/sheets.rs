//! The baseline's answers on the four sheets are the stored ones. SHEETS names their folder if it is not `bench/sheets`.

use bench::comparison::compare;
use bench::plain::PEER;
use bench::sheet::{Answers, Sheet};
use std::path::PathBuf;

#[test]
fn stored_answers() {
    let folder = std::env::var_os("SHEETS").map_or(PathBuf::from(env!("CARGO_MANIFEST_DIR")).join("sheets"), PathBuf::from);
    for name in ["small", "sheet", "ring", "dense"] {
        let file = folder.join(name).with_extension("txt");
        let (sheet, answers) = (Sheet::read(&file).unwrap(), Answers::read(&file).unwrap());
        assert_eq!(compare(&[PEER], &sheet, Some(&answers), true).unwrap().differences, [""; 0]);
    }
}
