//! The output streams.

use crate::history::Event;

/// The current stream, stream 0 and streams 1 to 9.
#[derive(Debug, Default)]
pub struct Streams {
    current: i32,
    output: Vec<u8>,
    numbered: [Vec<u8>; 9],
    /// Whether what is done to the streams is recorded. It shapes nothing and serves histories only.
    recording: bool,
    did: Option<Event>,
}

impl Streams {
    /// From now on it is recorded what each step does.
    pub fn record(&mut self) {
        self.recording = true;
    }

    /// What the last step did to the streams, if it is recorded. A step does one thing at most.
    pub fn did(&mut self) -> Option<Event> {
        self.did.take()
    }

    fn note(&mut self, event: impl FnOnce() -> Event) {
        if self.recording {
            self.did = Some(event());
        }
    }

    /// Makes a stream the current one. "divert outside 0 to 9 discards."
    pub fn divert(&mut self, stream: i32) {
        self.note(|| Event::Diverted(stream));
        self.current = stream;
    }

    /// 004: "the number of the current output stream".
    pub fn current(&self) -> i32 {
        self.current
    }

    /// A token goes to the current stream.
    pub fn write(&mut self, bytes: &[u8]) {
        self.note(|| Event::Written(bytes.to_vec()));
        self.append(bytes);
    }

    /// Appends to the current stream. Discarded text is held nowhere.
    fn append(&mut self, bytes: &[u8]) {
        match self.current {
            0 => self.output.extend_from_slice(bytes),
            1..=9 => self.numbered[self.current as usize - 1].extend_from_slice(bytes),
            _ => {}
        }
    }

    /// Moves the streams that are named, in turn. If none is: "undivert all nine".
    pub fn undivert(&mut self, named: &[i32]) {
        self.note(|| Event::Undiverted(named.to_vec()));
        let all: Vec<i32> = (1..=9).collect();
        let named = if named.is_empty() { &all } else { named };
        named.iter().for_each(|&stream| self.undivert_one(stream));
    }

    /// "undivert moves text unscanned and skips the current stream; into a discarding stream it is
    /// lost."
    fn undivert_one(&mut self, stream: i32) {
        if stream != self.current {
            let moved = std::mem::take(&mut self.numbered[stream as usize - 1]);
            self.append(&moved);
        }
    }

    /// "streams 1 to 9 are appended to the output in order".
    pub fn finish(&mut self) {
        self.note(|| Event::Joined);
        for stream in &mut self.numbered {
            self.output.append(stream);
        }
    }

    /// "m4exit ends at once; streams 1 to 9 and wrap text are dropped."
    pub fn exit(&mut self) {
        self.note(|| Event::Dropped);
        self.numbered.iter_mut().for_each(Vec::clear);
    }

    /// Stream 0, "bytes written so far".
    pub fn output(&self) -> &[u8] {
        &self.output
    }

    /// What buffer 4 holds: "the bytes in streams 1 to 9".
    pub fn held(&self) -> usize {
        self.numbered.iter().map(Vec::len).sum()
    }
}

#[cfg(test)]
mod tests {
    use super::*;

    #[test]
    fn moving_text() {
        let mut streams = Streams::default();
        streams.divert(2);
        streams.write(b"b");
        streams.divert(1);
        streams.write(b"a");
        streams.undivert(&[1]);
        streams.undivert(&[2]);
        assert_eq!((streams.held(), streams.output().len()), (2, 0));
        streams.divert(-1);
        streams.write(b"x");
        streams.divert(10);
        streams.write(b"x");
        assert_eq!(streams.held(), 2);
        streams.finish();
        assert_eq!((streams.held(), streams.output()), (0, &b"ab"[..]));
    }

    #[test]
    fn dropping_text() {
        let mut streams = Streams::default();
        streams.write(b"a");
        streams.divert(9);
        streams.write(b"b");
        streams.exit();
        assert_eq!((streams.held(), streams.output()), (0, &b"a"[..]));
    }

    #[test]
    fn recorded_only_where_it_is_asked_for() {
        let mut streams = Streams::default();
        streams.write(b"a");
        assert_eq!(streams.did(), None);
        streams.record();
        streams.write(b"ab");
        assert_eq!(streams.did(), Some(Event::Written(b"ab".to_vec())));
        assert_eq!(streams.did(), None);
        streams.divert(-1);
        assert_eq!(streams.did(), Some(Event::Diverted(-1)));
        streams.undivert(&[]);
        assert_eq!(streams.did(), Some(Event::Undiverted(vec![])));
        streams.undivert(&[2, 1]);
        assert_eq!(streams.did(), Some(Event::Undiverted(vec![2, 1])));
        streams.finish();
        assert_eq!(streams.did(), Some(Event::Joined));
        streams.exit();
        assert_eq!(streams.did(), Some(Event::Dropped));
    }
}
