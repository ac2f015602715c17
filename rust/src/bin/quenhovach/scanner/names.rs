//! Names on the walk: what is called, what is not, and what is defined.

use super::{Frame, Scan};
use crate::bytes::{begins_name, is_blank, is_in_name};
use crate::hints::{Gap, Kind, Own};
use crate::prose;
use crate::suspects::{
    changes_marks, includes, is_everyday, is_foreign, is_predefined, needs_call, takes_call,
};

impl<'t> Scan<'t> {
    pub(super) fn name(&mut self) {
        let place = self.at;
        let name = self.word(place, is_in_name);
        self.at += name.len();
        if !self.is_live() {
        } else if self.meaning(name) == Some("dnl") {
            self.remark(place, name);
        } else if self.text.get(self.at) == Some(&b'(') {
            self.call(place, name);
        } else {
            self.no_call(place, name);
        }
    }

    /// The predefined macro that a name means, its own or a copied one; none if it stands for a text, or for nothing.
    fn meaning(&self, name: &'t str) -> Option<&'t str> {
        match self.own.get(name) {
            Some(own) => own.copies,
            None => is_predefined(name).then_some(name),
        }
    }

    fn no_call(&mut self, place: usize, name: &'t str) {
        let meaning = self.meaning(name);
        if meaning == Some("divert") && !self.frame().in_call {
            self.discards = false;
        }
        let blanks = self.run_of(self.at, is_blank);
        let behind = self.at + blanks.len();
        if !blanks.is_empty() && self.text.get(behind) == Some(&b'(') {
            let popped = self.own.get(name).is_some_and(|own| own.popped);
            let gap = self.gap(name, blanks);
            if !popped && (meaning.is_none() || self.may_be_meant(place, &gap, behind + 1)) {
                self.note(place, Kind::Gap(gap));
            }
            return;
        }
        // What divnum gives is seen in the sheet, and dnl stands behind words by its nature.
        let may_vanish = meaning == Some(name) && takes_call(name) && self.quotes.is_empty();
        if may_vanish && prose::is_between_words(self.text, place..self.at) {
            self.note(place, Kind::Bare(name));
        }
        if meaning == Some("changecom") {
            self.change_marks();
        } else if let Some(taker) = self.frame().taker {
            self.note_counted(place, name, taker);
        }
    }

    fn gap(&self, name: &'t str, blanks: &[u8]) -> Gap<'t> {
        let meaning = self.meaning(name);
        Gap {
            name,
            means: meaning.unwrap_or(name),
            newline: blanks.contains(&b'\n'),
            called: !meaning.is_some_and(needs_call),
            counted: self.frame().taker.is_some(),
        }
    }

    /// Whether a predefined name or a copy that has blanks and `(` behind it can hardly be a word with a remark in parentheses. A crew's own name
    /// for a macro may be any word.
    fn may_be_meant(&self, place: usize, gap: &Gap, behind: usize) -> bool {
        let is_word = !gap.called && (is_everyday(gap.name) || !is_predefined(gap.name));
        !is_word
            || gap.counted
            || prose::is_reading(self.text, place)
            || prose::begins_arguments(self.text, behind)
            || includes(gap.means) && prose::is_file_name(self.text, behind)
    }

    /// A name in an argument of a macro that takes whole numbers.
    fn note_counted(&mut self, place: usize, name: &'t str, taker: &'t str) {
        let number = "";
        let kind = match self.meaning(name) {
            None => Kind::NamedPoint {
                name,
                number,
                taker,
            },
            Some(meaning) if needs_call(meaning) => Kind::Plain { name, taker },
            Some(_) => return,
        };
        self.note(place, kind);
    }

    fn call(&mut self, place: usize, name: &'t str) {
        let around = self.frame();
        if is_foreign(name) {
            self.note(place, Kind::Foreign(name));
        }
        self.at += 1;
        let mut frame = Frame {
            in_call: true,
            given: None,
            taker: None,
            ..around
        };
        let Some(meaning) = self.meaning(name) else {
            let own = self.own.contains_key(name);
            frame.given = Some(name);
            return self.frames.push(if own { frame } else { around });
        };
        frame.keeps |= ["define", "pushdef", "m4wrap"].contains(&meaning);
        match meaning {
            "copydef" => {
                self.frames.push(frame);
                return self.copy();
            }
            "define" | "pushdef" => frame.defines = self.definition().or(around.defines),
            "undefine" | "popdef" => {
                let own = self.own.entry(self.argument_name()).or_default();
                own.popped = true;
                own.copies = None;
            }
            "eval" | "incr" | "decr" => {
                frame.taker = Some(name);
                if let Some(own) = around.defines.and_then(|name| self.own.get_mut(name)) {
                    own.taker = own.taker.or(Some(name));
                }
            }
            "errprint" => frame.as_is = true,
            "divert" if !around.in_call => self.discards = self.text.get(self.at) == Some(&b'-'),
            _ if changes_marks(meaning) => return self.change_marks(),
            _ => {}
        }
        self.frames.push(frame);
    }

    /// What is quoted or a comment, and so what is called, can't be told from here on.
    fn change_marks(&mut self) {
        self.marks_changed = true;
        self.frames.clear();
        self.quotes.clear();
    }

    /// The name that is given first, quoted or not.
    fn argument_name(&self) -> &'t str {
        self.name_at(self.argument())
    }

    /// Where the first argument begins, quoted or not.
    fn argument(&self) -> usize {
        self.at + self.run_of(self.at, |b| is_blank(b) || b == b'`').len()
    }

    /// Where the second argument begins, quoted or not, if the first is a name that ends there.
    fn argument_behind(&self, end: usize) -> usize {
        let between = |b| is_blank(b) || b"`',".contains(&b);
        end + self.run_of(end, between).len()
    }

    /// The name that begins at a place, if one does.
    fn name_at(&self, place: usize) -> &'t str {
        match self.text.get(place) {
            Some(&byte) if begins_name(byte) => self.word(place, is_in_name),
            _ => "",
        }
    }

    /// Takes note of a copy: the second name gets what the first is known to mean.
    fn copy(&mut self) {
        let place = self.argument();
        let name = self.name_at(place);
        let end = place + name.len();
        let (meaning, own) = (self.meaning(name), self.own.get(name).copied());
        let called = match meaning {
            Some(meaning) => !needs_call(meaning),
            None => own.is_some_and(|own| !own.popped),
        };
        let quoted = self.text[..place].ends_with(b"`");
        if called && !quoted && self.text.get(end) != Some(&b'(') {
            self.note(place, Kind::Unquoted(name));
        }
        let to = self.name_at(self.argument_behind(end));
        if name.is_empty() || to.is_empty() {
            return;
        }
        let own = own.unwrap_or_default();
        let first = !self.own.contains_key(to);
        let copy = Own {
            point: own.point.filter(|_| first),
            popped: false,
            copies: meaning,
            ..own
        };
        self.own.insert(to, copy);
    }

    /// Takes note of a definition; its name.
    fn definition(&mut self) -> Option<&'t str> {
        let name = self.argument_name();
        if name.is_empty() {
            return None;
        }
        let text = self.argument_behind(self.argument() + name.len());
        let point = self.pointed(text).filter(|number| {
            let behind = self.text.get(text + number.len());
            matches!(behind, Some(b'\'' | b')'))
        });
        let first = !self.own.contains_key(name);
        let own = self.own.entry(name).or_default();
        own.point = point.filter(|_| first);
        own.popped = false;
        own.copies = None;
        Some(name)
    }
}
