//! The numbers of `dating.h` are those of the crate, and a tie is the same in both and in the Rattle source. The functions are written by `host/declarations`.

use std::fs;
use std::path::Path;

fn text(path: &str) -> String {
    let path = Path::new(env!("CARGO_MANIFEST_DIR")).join(path);
    fs::read_to_string(&path).unwrap_or_else(|error| panic!("{}: {error}", path.display()))
}

/// A text with comments taken out and every run of spaces and line ends made one space.
fn plain(text: &str) -> String {
    let mut text = text.to_string();
    while let Some(start) = text.find("/*") {
        let end = start + text[start..].find("*/").expect("a comment ends") + 2;
        text.replace_range(start..end, " ");
    }
    let lines = text.lines().map(|line| line.split("//").next().unwrap_or_default());
    lines.flat_map(str::split_whitespace).collect::<Vec<_>>().join(" ")
}

/// The numbers that stand in the header and in the crate.
#[test]
fn constants_are_the_same() {
    let header = text("dating.h");
    let defined = |name: &str| {
        let line = header.lines().find_map(|line| line.strip_prefix(&format!("#define {name} ")));
        line.unwrap_or_else(|| panic!("{name} is not defined")).to_string()
    };
    assert_eq!(defined("DATING_STATE_WORDS"), dating::calls::STATE_WORDS.to_string());
    assert_eq!(defined("DATING_WORK_WORDS"), dating::support_work(1024).to_string());
    assert_eq!(defined("DATING_NO_NUMBER"), dating::calls::NO_NUMBER.to_string());
    assert_eq!(defined("DATING_PLACE"), dating::calls::PLACE.to_string());
    let power = |number: u64| format!("(UINT64_C(1) << {})", number.trailing_zeros());
    assert_eq!(defined("DATING_NO_CHAIN"), power(dating::calls::NO_CHAIN));
    assert_eq!(defined("DATING_REFUSED"), power(dating::calls::REFUSED));
    assert_eq!(defined("DATING_CANNOT_HOLD"), power(dating::calls::CANNOT_HOLD));
}

/// A tie has C's layout, and the header's fields are those of the crate and of the Rattle source.
#[test]
fn tie_is_the_same() {
    let fields = "first: u16, second: u16, least: i32, most: i32,";
    for (source, before) in
        [(text("src/offsets.rs"), "pub struct Tie {"), (text("../crates/offsets/src/lib.rt"), "pub struct Tie {")]
    {
        let source = plain(&source);
        let (_, rest) = source.split_once(before).expect("a struct");
        let (found, _) = rest.split_once('}').expect("its end");
        assert_eq!(found.replace("pub ", "").trim(), fields);
    }
    assert!(plain(&text("dating.h")).contains("struct dating_tie { uint16_t first, second; int32_t least, most; };"));
    assert_eq!((std::mem::size_of::<dating::Tie>(), std::mem::align_of::<dating::Tie>()), (12, 4));
    assert_eq!(
        (
            std::mem::offset_of!(dating::Tie, second),
            std::mem::offset_of!(dating::Tie, least),
            std::mem::offset_of!(dating::Tie, most)
        ),
        (2, 4, 8)
    );
}
