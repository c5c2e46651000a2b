//! Systems side by side on the same sheets: times, ratios to the first of them, differences, memory.

use crate::answer::{line, microseconds, timed, timed_ask, CLEAR};
use crate::memory;
use crate::register::LINKS;
use crate::sheet::{Answers, Question, Sheet};
use crate::system::{Peer, LIST};
use std::fmt::{self, Display, Formatter};

/// What one sheet gave, with a place for each system wherever there is a list of them.
pub struct Comparison<'a> {
    sheet: &'a Sheet,
    peers: &'a [Peer],
    /// Microseconds to load the sheet.
    load: Vec<f64>,
    /// For each question, the microseconds of an answer.
    times: Vec<Vec<f64>>,
    /// For each question, whether the answer is another than the stored one or the first system's; of an edit, than the right one.
    differs: Vec<Vec<bool>>,
    /// Bytes held for the loaded sheet, and the most bytes that a question took beyond them.
    memory: Vec<(usize, usize)>,
    /// A line for each difference.
    pub differences: Vec<String>,
}

/// Asks each system each question, one system right after the other.
pub fn compare<'a>(peers: &'a [Peer], sheet: &'a Sheet, stored: Option<&Answers>, once: bool) -> Result<Comparison<'a>, String> {
    let mut result = Comparison {
        sheet,
        peers,
        load: Vec::new(),
        times: Vec::new(),
        differs: Vec::new(),
        memory: Vec::new(),
        differences: Vec::new(),
    };
    let mut systems = Vec::new();
    for peer in peers {
        let before = memory::held();
        let (system, time) = timed(true, || (peer.load)(sheet.n, &sheet.links));
        let loaded = memory::held() - before;
        result.memory.push((loaded, 0));
        result.load.push(microseconds(time));
        systems.push(system.map_err(|number| format!("{}: {} refuses to load it: {number}", sheet.name, peer.name))?);
    }
    let mut list = vec![0; LIST];
    for (index, question) in sheet.questions.iter().enumerate() {
        let mut first = None;
        let (mut times, mut differs) = (Vec::new(), Vec::new());
        for (at, system) in systems.iter_mut().enumerate() {
            memory::most();
            let held = memory::held();
            let (reply, time) = timed_ask(once, &mut **system, question, &mut list);
            result.memory[at].1 = result.memory[at].1.max(memory::most() - held);
            times.push(microseconds(time));
            let line = line(index, question, reply, &list);
            let (words, past) = list.split_at(reply.ok().flatten().unwrap_or(0));
            let first = first.get_or_insert_with(|| (reply, words.to_vec()));
            let difference = match stored.map(|stored| stored.0.get(&index)) {
                _ if reply.is_err() => Some("refused".into()),
                _ if past.iter().any(|&word| word != CLEAR) => Some("it writes past the answer".into()),
                _ if question.class().is_none() => {
                    (words != edit_answers(sheet)).then(|| format!("add and remove answer {words:?}"))
                }
                Some(None) => Some("no answer is stored".into()),
                Some(Some(stored)) if *stored != line => Some(format!("stored is `{stored}`")),
                _ if (reply, words) != (first.0, &first.1) => Some(format!("not the words of {}", peers[0].name)),
                _ => None,
            };
            differs.push(difference.is_some());
            if let Some(difference) = difference {
                result.differences.push(format!("{}: {} gives `{line}`: {difference}", sheet.name, peers[at].name));
            }
        }
        result.times.push(times);
        result.differs.push(differs);
    }
    let asked = sheet.questions.iter().filter(|question| question.class().is_some()).count();
    if stored.is_some_and(|stored| stored.0.len() > asked) {
        result.differences.push(format!("{}: answers are stored to questions that it does not have", sheet.name));
    }
    Ok(result)
}

/// The right answers to add and remove: to a full sheet nothing can be added, and the link is still absent at the remove.
fn edit_answers(sheet: &Sheet) -> [u32; 2] {
    if sheet.links.len() < LINKS {
        [0, 0]
    } else {
        [7, 6]
    }
}

/// The questions of a kind, or of one of its classes.
#[derive(Clone, PartialEq)]
struct Group<'a> {
    kind: &'static str,
    class: Option<&'a str>,
}

impl Group<'_> {
    fn has(&self, question: &Question) -> bool {
        question.kind() == self.kind && (self.class.is_none() || question.class() == self.class)
    }

    fn title(&self) -> String {
        self.class.map_or(self.kind.into(), |class| format!("  {class}"))
    }
}

/// Each kind, followed by its classes in the order of the sheet.
fn groups(sheet: &Sheet) -> Vec<Group<'_>> {
    let mut groups = Vec::new();
    for kind in ["edit", "pairs", "chain"] {
        for question in sheet.questions.iter().filter(|question| question.kind() == kind) {
            for class in [None, question.class()] {
                let group = Group { kind, class };
                if !groups.contains(&group) {
                    groups.push(group);
                }
            }
        }
    }
    groups
}

impl Comparison<'_> {
    /// The group's times with one system, ascending, and its number of differences.
    fn of(&self, group: &Group, peer: usize) -> (Vec<f64>, usize) {
        let members = || (0..self.times.len()).filter(|&index| group.has(&self.sheet.questions[index]));
        let mut times: Vec<f64> = members().map(|index| self.times[index][peer]).collect();
        times.sort_by(f64::total_cmp);
        (times, members().filter(|&index| self.differs[index][peer]).count())
    }

    fn row(&self, f: &mut Formatter, title: &str, peer: usize, all: &[(Vec<f64>, usize)]) -> fmt::Result {
        let (times, differing) = &all[peer];
        let (own, base) = ((median(times), total(times)), (median(&all[0].0), total(&all[0].0)));
        let title = if peer == 0 { title } else { "" };
        write!(f, "{title:18}{:>5}  {:10}", times.len(), self.peers[peer].name)?;
        write!(f, "{:>12.2}{:>8.2}", own.0, own.0 / base.0)?;
        writeln!(f, "{:>12.2}{:>8.2}{differing:>12}", own.1, own.1 / base.1)
    }
}

impl Display for Comparison<'_> {
    fn fmt(&self, f: &mut Formatter) -> fmt::Result {
        let peers = 0..self.peers.len();
        writeln!(f, "{}: {} records, {} links; microseconds", self.sheet.name, self.sheet.n, self.sheet.links.len())?;
        write!(f, "{:18}{:>5}  {:10}", "class", "count", "system")?;
        writeln!(f, "{:>12}{:>8}{:>12}{:>8}{:>12}", "median", "ratio", "total", "ratio", "differences")?;
        let load: Vec<_> = self.load.iter().map(|&time| (vec![time], 0)).collect();
        peers.clone().try_for_each(|peer| self.row(f, "load", peer, &load))?;
        for group in groups(self.sheet) {
            let all: Vec<_> = peers.clone().map(|peer| self.of(&group, peer)).collect();
            peers.clone().try_for_each(|peer| self.row(f, &group.title(), peer, &all))?;
        }
        if edit_answers(self.sheet) != [0, 0] {
            writeln!(f, "edits: the sheet is full, so the add is refused with 7 and the remove with 6")?;
        }
        for (peer, (loaded, question)) in self.peers.iter().zip(&self.memory) {
            writeln!(f, "memory of {}: {loaded} bytes loaded, at most {question} more for a question", peer.name)?;
        }
        self.differences.iter().try_for_each(|difference| writeln!(f, "{difference}"))
    }
}

/// Sheets of growing size and the same questions.
pub struct Growth<'a>(pub Vec<Comparison<'a>>);

impl Display for Growth<'_> {
    fn fmt(&self, f: &mut Formatter) -> fmt::Result {
        let Some(smallest) = self.0.first() else { return Ok(()) };
        write!(f, "growth: total microseconds by n\n{:18}{:16}", "class", "system")?;
        self.0.iter().try_for_each(|comparison| write!(f, "{:>10}", comparison.sheet.n))?;
        writeln!(f)?;
        for group in groups(smallest.sheet) {
            let totals: Vec<Vec<f64>> = (0..smallest.peers.len())
                .map(|peer| self.0.iter().map(|comparison| total(&comparison.of(&group, peer).0)).collect())
                .collect();
            for (at, (peer, own)) in smallest.peers.iter().zip(&totals).enumerate() {
                write!(f, "{:18}{:16}", if at == 0 { group.title() } else { String::new() }, peer.name)?;
                own.iter().try_for_each(|time| write!(f, "{time:>10.2}"))?;
                writeln!(f)?;
                if at > 0 {
                    write!(f, "{:18}{:16}", "", "  ratio")?;
                    own.iter().zip(&totals[0]).try_for_each(|(own, base)| write!(f, "{:>10.2}", own / base))?;
                    writeln!(f)?;
                }
            }
        }
        self.0.iter().flat_map(|comparison| &comparison.differences).try_for_each(|difference| writeln!(f, "{difference}"))
    }
}

fn median(ascending: &[f64]) -> f64 {
    (ascending[(ascending.len() - 1) / 2] + ascending[ascending.len() / 2]) / 2.0
}

fn total(times: &[f64]) -> f64 {
    times.iter().sum()
}

#[cfg(test)]
mod tests {
    use super::*;
    use crate::plain;
    use crate::sheet::Link;
    use crate::system::{Refusal, System};

    /// Lists pairs in descending order, knows no chain and refuses edits.
    struct Wrong(Box<dyn System>);

    impl System for Wrong {
        fn pairs(&mut self, expression: &[u8], list: &mut [u32]) -> Result<usize, Refusal> {
            let count = self.0.pairs(expression, list)?;
            list[..count].reverse();
            Ok(count)
        }

        fn chain(&mut self, _: u32, _: u32, _: &[u8], _: &mut [u32]) -> Result<Option<usize>, Refusal> {
            Ok(None)
        }

        fn add(&mut self, _: Link) -> Result<(), Refusal> {
            Err(7)
        }

        fn remove(&mut self, _: Link) -> Result<(), Refusal> {
            Err(7)
        }
    }

    const WRONG: Peer = Peer { name: "wrong", load: |n, links| Ok(Box::new(Wrong((plain::PEER.load)(n, links)?))) };

    const SHEET: &str = "open 3\nadd 0 a 1\nadd 1 a 2\npairs p a\nedit 0 b 1\nchain c 0 1 a\nchain c 0 2 a\n";

    fn differences(peers: &[Peer], stored: Option<&str>) -> Vec<String> {
        let stored = stored.map(|text| Answers::parse(text).unwrap());
        let sheet = Sheet::parse("s", SHEET).unwrap();
        let result = compare(peers, &sheet, stored.as_ref(), true).unwrap();
        assert_eq!(result.differs.iter().flatten().filter(|&&differs| differs).count(), result.differences.len());
        assert!(result.to_string().lines().count() > 3);
        result.differences
    }

    #[test]
    fn another_answer_is_a_difference() {
        let pairs = crate::answer::pairs_checksum(&[1, 1026]);
        let right = format!("pairs 0 2 {pairs:08x}\nchain 2 1 00000002\nchain 3 none -\n");
        assert_eq!(differences(&[plain::PEER], Some(&right)), [""; 0]);
        let both = [plain::PEER, WRONG];
        for stored in [None, Some(right.as_str())] {
            let found = differences(&both, stored);
            assert_eq!(found.len(), 3, "{found:?}");
            assert!(found.iter().all(|line| line.starts_with("s: wrong gives")), "{found:?}");
        }
        assert_eq!(differences(&[plain::PEER], Some(&right.replace("none -", "1 00000003"))).len(), 1);
        assert_eq!(differences(&[plain::PEER], Some(&right[..right.len() - 15])).len(), 1);
        assert_eq!(differences(&[WRONG], None).len(), 1);
    }

    #[test]
    fn groups_keep_the_order_of_the_sheet() {
        let sheet = Sheet::parse("s", SHEET).unwrap();
        let titles: Vec<_> = groups(&sheet).iter().map(Group::title).collect();
        assert_eq!(titles, ["edit", "pairs", "  p", "chain", "  c"]);
    }
}
