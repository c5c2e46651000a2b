//! Space to lend, with words on both sides of it that no call may touch.

const MARGIN: usize = 64;

/// Words whose contents are known before a call; `mark` fills them.
#[derive(Clone)]
pub struct Lent<T> {
    all: Vec<T>,
    before: Vec<T>,
}

impl<T: Copy + PartialEq> Lent<T> {
    pub fn new(len: usize, mark: T) -> Lent<T> {
        let all = vec![mark; len + 2 * MARGIN];
        Lent { before: all.clone(), all }
    }

    pub fn get(&mut self) -> &mut [T] {
        let end = self.all.len() - MARGIN;
        &mut self.all[MARGIN..end]
    }

    /// After a call: the words written, if nothing else was.
    pub fn written(&self, count: usize) -> Option<&[T]> {
        let (start, end) = (MARGIN, MARGIN + count);
        let same = self.all[..start] == self.before[..start] && self.all[end..] == self.before[end..];
        same.then(|| &self.all[start..end])
    }

    /// After a call: whether the words around it are as they were.
    pub fn kept_around(&self) -> bool {
        let end = self.all.len() - MARGIN;
        self.all[..MARGIN] == self.before[..MARGIN] && self.all[end..] == self.before[end..]
    }
}
