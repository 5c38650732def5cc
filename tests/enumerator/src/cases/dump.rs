//! The lines of a case.

/// A run of at least this many equal items is written once with a count.
const RUN: usize = 16;

pub struct Case {
    pub lines: String,
}

impl Case {
    pub fn new(note: &str) -> Case {
        Case { lines: format!("note {note}\n") }
    }

    pub fn number(mut self, name: &str, number: u64) -> Case {
        self.lines += &format!("{name} {number}\n");
        self
    }

    pub fn bytes(mut self, name: &str, bytes: &[u8]) -> Case {
        self.lines += &format!("{name}{}\n", dump(bytes, |byte| format!("{byte:02x}")));
        self
    }

    pub fn words(mut self, name: &str, words: &[u16]) -> Case {
        self.lines += &format!("{name}{}\n", dump(words, |word| format!("{word:04x}")));
        self
    }
}

/// Pieces, each after a space: hex digits item after item, or one item, a star and how
/// often it stands there.
fn dump<T: PartialEq>(items: &[T], hex: impl Fn(&T) -> String) -> String {
    let mut text = String::new();
    let mut plain = false;
    for run in items.chunk_by(|one, other| one == other) {
        if run.len() >= RUN {
            text += &format!(" {}*{}", hex(&run[0]), run.len());
            plain = false;
            continue;
        }
        if !plain {
            text += " ";
        }
        run.iter().for_each(|item| text += &hex(item));
        plain = true;
    }
    text
}
