//! What a command answers.

use crate::json::{Json, Object};

/// An answer, as text and as an object.
pub struct Answer {
    pub text: String,
    pub object: Object,
    /// Whether it is a yes: status 0, else 1.
    pub yes: bool,
}

impl Answer {
    pub fn new(command: &str) -> Answer {
        Answer { text: String::new(), object: Object::new().with("command", command), yes: true }
    }

    /// Adds a line of text, without the blanks at its end.
    pub fn line(&mut self, line: impl AsRef<str>) {
        self.text.push_str(line.as_ref().trim_end());
        self.text.push('\n');
    }

    /// Adds a field to the object.
    pub fn field(&mut self, key: &str, value: impl Json) {
        let object = std::mem::replace(&mut self.object, Object::new());
        self.object = object.with(key, value);
    }
}

/// `1 cell`, `3 cells`.
pub fn many(n: impl Into<u64>, one: &str) -> String {
    match n.into() {
        1 => format!("1 {one}"),
        n => format!("{n} {one}s"),
    }
}

/// `hop 57`, `no route`.
pub fn hop(hop: Option<u16>) -> String {
    hop.map_or("no route".into(), |h| format!("hop {h}"))
}
