//! Changes of the marks.

use super::{default_quote, Writer, DEEPEST};
use crate::generate::marks::{marks, Pair, BAD_MARKS};

impl Writer<'_> {
    fn mark(&mut self, good: Vec<u8>) -> Vec<u8> {
        if self.random.chance(self.wild) {
            self.random.pick(&BAD_MARKS).to_vec()
        } else {
            good
        }
    }

    /// New marks, as arguments and as they are.
    fn new_marks(&mut self) -> (Vec<Vec<u8>>, Pair) {
        let (begin, end) = marks(self.random);
        let (begin, mut end) = (self.mark(begin), self.mark(end));
        let mut arguments = vec![self.quoted(&begin), self.quoted(&end)];
        match self.random.below(12) {
            0 => {
                arguments.truncate(1);
                end = b"\n".to_vec();
            }
            1 => arguments.push(self.argument(DEEPEST)),
            _ => {}
        }
        (arguments, (begin, end))
    }

    pub(super) fn change_comment(&mut self) -> Vec<u8> {
        if self.random.chance(35) {
            self.comment = None;
            return self.bare(b"changecom");
        }
        let (arguments, marks) = self.new_marks();
        let text = self.call(b"changecom", &arguments);
        self.comment = Some(marks);
        text
    }

    pub(super) fn change_quote(&mut self) -> Vec<u8> {
        if self.random.chance(35) {
            self.quote = default_quote();
            return self.bare(b"changequote");
        }
        let (arguments, marks) = self.new_marks();
        let text = self.call(b"changequote", &arguments);
        self.quote = marks;
        text
    }
}
