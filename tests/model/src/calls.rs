//! Open calls and the arguments collected for them.

use crate::answer::Refusal;
use crate::bytes::is_blank;

/// "a 65th open call" is refused.
const MOST_CALLS: usize = 64;
/// "a 257th argument over all open calls" is refused.
const MOST_ARGUMENTS: usize = 256;

/// A call whose right parenthesis has not been read.
#[derive(Clone, Debug, PartialEq, Eq)]
pub struct Call {
    pub name: Vec<u8>,
    pub arguments: Vec<Vec<u8>>,
    /// Whether the last argument has its first collected token.
    collected: bool,
    /// How many unquoted parentheses are open in the last argument.
    depth: usize,
}

/// All open calls, the innermost last.
#[derive(Debug, Default)]
pub struct OpenCalls {
    calls: Vec<Call>,
}

impl OpenCalls {
    /// Whether arguments are being collected.
    pub fn collecting(&self) -> bool {
        !self.calls.is_empty()
    }

    /// "an opened call has its first argument at once".
    pub fn open(&mut self, name: Vec<u8>) -> Result<(), Refusal> {
        if self.calls.len() == MOST_CALLS || self.arguments() == MOST_ARGUMENTS {
            return Err(Refusal::Deep);
        }
        self.calls.push(Call {
            name,
            arguments: vec![Vec::new()],
            collected: false,
            depth: 0,
        });
        Ok(())
    }

    /// Collects the text of a token in the innermost call. "A quoted token, even empty, counts as
    /// collected; so does a comment."
    pub fn collect(&mut self, bytes: &[u8]) {
        let call = self.collector();
        call.collected = true;
        call.argument().extend_from_slice(bytes);
    }

    /// Takes a token of one byte. Gives the innermost call back if that byte closes it.
    pub fn take_byte(&mut self, byte: u8) -> Result<Option<Call>, Refusal> {
        let call = self.collector();
        match byte {
            // "unquoted spaces, tabs and newlines before the first collected token of an argument
            // are dropped"
            _ if is_blank(byte) && !call.collected => return Ok(None),
            // "A comma at depth zero starts the next argument"
            b',' if call.depth == 0 => return self.next_argument().map(|()| None),
            // "the right parenthesis at depth zero closes"
            b')' if call.depth == 0 => return Ok(self.calls.pop()),
            // "Unquoted parentheses nest."
            b'(' => call.depth += 1,
            b')' => call.depth -= 1,
            _ => {}
        }
        self.collect(&[byte]);
        Ok(None)
    }

    fn next_argument(&mut self) -> Result<(), Refusal> {
        if self.arguments() == MOST_ARGUMENTS {
            return Err(Refusal::Deep);
        }
        let call = self.collector();
        call.arguments.push(Vec::new());
        call.collected = false;
        Ok(())
    }

    /// How many calls are open.
    pub fn count(&self) -> usize {
        self.calls.len()
    }

    /// The call that collects, if one is open.
    pub fn innermost(&self) -> Option<&Call> {
        self.calls.last()
    }

    fn collector(&mut self) -> &mut Call {
        self.calls.last_mut().expect("a call is open")
    }

    /// The count of arguments over all open calls.
    fn arguments(&self) -> usize {
        self.calls.iter().map(|call| call.arguments.len()).sum()
    }

    /// What buffer 2 holds: "the names and arguments collected of all open calls".
    pub fn held(&self) -> usize {
        self.calls.iter().map(Call::held).sum()
    }
}

impl Call {
    fn argument(&mut self) -> &mut Vec<u8> {
        self.arguments
            .last_mut()
            .expect("an open call has an argument")
    }

    fn held(&self) -> usize {
        self.name.len() + self.arguments.iter().map(Vec::len).sum::<usize>()
    }
}

#[cfg(test)]
mod tests {
    use super::*;

    fn collected(bytes: &[u8]) -> Option<Call> {
        let mut calls = OpenCalls::default();
        calls.open(b"f".to_vec()).unwrap();
        let mut closed = None;
        for &byte in bytes {
            assert!(closed.is_none());
            closed = calls.take_byte(byte).unwrap();
        }
        closed
    }

    #[test]
    fn arguments_of_a_call() {
        assert_eq!(collected(b")").unwrap().arguments, [b""]);
        let call = collected(b" a ,\t\n(b, c),)").unwrap();
        assert_eq!(call.arguments, [&b"a "[..], b"(b, c)", b""]);
        assert_eq!(call.held(), 1 + 2 + 6);
        assert_eq!(collected(b"(a),"), None);
    }

    #[test]
    fn limits() {
        let mut calls = OpenCalls::default();
        for _ in 0..64 {
            calls.open(b"f".to_vec()).unwrap();
        }
        assert_eq!(calls.open(b"f".to_vec()), Err(Refusal::Deep));
        for _ in 64..256 {
            assert_eq!(calls.take_byte(b','), Ok(None));
        }
        assert_eq!(calls.take_byte(b','), Err(Refusal::Deep));
        assert!(calls.take_byte(b')').unwrap().is_some());
        assert_eq!(calls.open(b"f".to_vec()), Ok(()));
    }
}
