//! Sheets with their questions, and stored answers.

use std::collections::HashMap;
use std::fs;
use std::path::Path;

#[derive(Clone, Copy, Debug, PartialEq, Eq)]
pub struct Link {
    pub from: u32,
    pub label: u32,
    pub to: u32,
}

#[derive(Clone, Debug, PartialEq, Eq)]
pub enum Question {
    Pairs {
        class: String,
        expression: String,
    },
    Chain {
        class: String,
        from: u32,
        to: u32,
        expression: String,
    },
    /// Add this absent link, then remove it.
    Edit(Link),
}

impl Question {
    /// `pairs`, `chain` or `edit`.
    pub fn kind(&self) -> &'static str {
        match self {
            Question::Pairs { .. } => "pairs",
            Question::Chain { .. } => "chain",
            Question::Edit(_) => "edit",
        }
    }

    /// The class that the sheet gives; edits have none.
    pub fn class(&self) -> Option<&str> {
        match self {
            Question::Pairs { class, .. } | Question::Chain { class, .. } => Some(class),
            Question::Edit(_) => None,
        }
    }
}

/// A sheet as the shell writes it, `NAME.txt`, and the questions beside it, `NAME.questions`. A question's place in `questions` is its index.
#[derive(Clone, Debug, Default, PartialEq, Eq)]
pub struct Sheet {
    pub name: String,
    pub n: u32,
    pub links: Vec<Link>,
    pub questions: Vec<Question>,
}

/// The first line of a sheet.
const HEAD: &str = "# sheet of a dating register, version 1";

impl Sheet {
    /// The sheet at `path`, and its questions.
    pub fn read(path: &Path) -> Result<Sheet, String> {
        let mut sheet = Sheet::load(path)?;
        let questions = path.with_extension("questions");
        let name = format!("{}.questions", sheet.name);
        sheet.take_all(&name, &text(&questions)?)?;
        Ok(sheet)
    }

    /// The sheet at `path`, which is any that the shell wrote without locks and withdrawn records.
    pub fn load(path: &Path) -> Result<Sheet, String> {
        let name = path.file_stem().unwrap_or_default().to_string_lossy();
        let text = text(path)?;
        let sheet = Sheet::parse(&name, &text)?;
        let counts = format!("# {} records, {} links, 0 locked, 0 withdrawn", sheet.n, sheet.links.len());
        match (text.lines().next(), text.lines().last()) {
            (Some(HEAD), Some(last)) if last == counts => Ok(sheet),
            _ => Err(format!("{name}.txt: no whole sheet: it begins with '{HEAD}' and ends with '{counts}'")),
        }
    }

    /// The lines of a sheet, of its questions, or of both.
    pub fn parse(name: &str, text: &str) -> Result<Sheet, String> {
        let mut sheet = Sheet { name: name.into(), ..Sheet::default() };
        sheet.take_all(&format!("{name}.txt"), text)?;
        Ok(sheet)
    }

    fn take_all(&mut self, file: &str, text: &str) -> Result<(), String> {
        for (at, line) in text.lines().enumerate() {
            self.take(line).ok_or_else(|| format!("{file}, line {}: {line}", at + 1))?;
        }
        Ok(())
    }

    /// None if the line is not of the format.
    fn take(&mut self, line: &str) -> Option<()> {
        match *line.split(' ').collect::<Vec<_>>() {
            ["#", ..] => {}
            ["open", count] => self.n = count.parse().ok()?,
            ["add", from, letter, to] => self.links.push(link(from, letter, to)?),
            ["pairs", class, expression] => {
                self.questions.push(Question::Pairs { class: class.into(), expression: expression.into() })
            }
            ["chain", class, from, to, expression] => self.questions.push(Question::Chain {
                class: class.into(),
                from: from.parse().ok()?,
                to: to.parse().ok()?,
                expression: expression.into(),
            }),
            ["edit", from, letter, to] => self.questions.push(Question::Edit(link(from, letter, to)?)),
            _ => return None,
        }
        Some(())
    }
}

fn link(from: &str, letter: &str, to: &str) -> Option<Link> {
    match *letter.as_bytes() {
        [byte @ b'a'..=b'z'] => Some(Link { from: from.parse().ok()?, label: u32::from(byte - b'a'), to: to.parse().ok()? }),
        _ => None,
    }
}

/// `NAME.answers`: by index, the result line without its time.
#[derive(Debug)]
pub struct Answers(pub HashMap<usize, String>);

impl Answers {
    /// The answers that lie beside the sheet at `path`.
    pub fn read(path: &Path) -> Result<Answers, String> {
        let path = path.with_extension("answers");
        Answers::parse(&text(&path)?).map_err(|line| format!("{}: {line}", path.display()))
    }

    /// The first line that is malformed or answers a question again is the error.
    pub fn parse(text: &str) -> Result<Answers, String> {
        let mut answers = HashMap::new();
        for line in text.lines() {
            let fields: Vec<_> = line.split(' ').collect();
            let index = match fields[..] {
                ["pairs" | "chain", index, _, _] => index.parse().ok(),
                _ => None,
            };
            let again = index.is_none_or(|index| answers.insert(index, line.to_string()).is_some());
            if again {
                return Err(line.into());
            }
        }
        Ok(Answers(answers))
    }
}

fn text(path: &Path) -> Result<String, String> {
    fs::read_to_string(path).map_err(|error| format!("{}: {error}", path.display()))
}

#[cfg(test)]
mod tests {
    use super::*;

    #[test]
    fn a_sheet_is_read_line_by_line() {
        let sheet = Sheet::parse("s", "open 4\nadd 0 a 1\npairs single ^a\nedit 2 z 3\nchain far 0 3 a+/b\n").unwrap();
        assert_eq!((sheet.n, &sheet.links[..]), (4, &[Link { from: 0, label: 0, to: 1 }][..]));
        let kinds: Vec<_> = sheet.questions.iter().map(|question| (question.kind(), question.class())).collect();
        assert_eq!(kinds, [("pairs", Some("single")), ("edit", None), ("chain", Some("far"))]);
        assert_eq!(sheet.questions[1], Question::Edit(Link { from: 2, label: 25, to: 3 }));
    }

    #[test]
    fn a_malformed_line_is_named() {
        for line in ["add 0 A 1", "add 0 ab 1", "add 0 a", "lock 0", "pairs a", "chain c 0 x a", "", "other 1"] {
            assert_eq!(Sheet::parse("s", &format!("open 4\n{line}\n")), Err(format!("s.txt, line 2: {line}")));
        }
    }

    #[test]
    fn a_cut_sheet_is_no_sheet() {
        let path = std::env::temp_dir().join(format!("sheet-{}.txt", std::process::id()));
        for (lines, whole) in [("open 4\nadd 0 a 1\n", true), ("open 4\n", false)] {
            fs::write(&path, format!("{HEAD}\n{lines}# 4 records, 1 links, 0 locked, 0 withdrawn\n")).unwrap();
            assert_eq!(Sheet::load(&path).is_ok(), whole, "{lines}");
        }
        fs::remove_file(&path).unwrap();
    }

    #[test]
    fn answers_are_kept_by_index() {
        let answers = Answers::parse("pairs 8 45 78f7f966\nchain 31 none -\n").unwrap().0;
        assert_eq!((answers.len(), answers[&31].as_str()), (2, "chain 31 none -"));
        for text in ["pairs 8 45", "edit 1", "pairs x 1 00000000", "pairs 8 0 0\npairs 8 0 0"] {
            assert!(Answers::parse(text).is_err(), "{text}");
        }
    }
}
