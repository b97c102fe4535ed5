//! Why a command ends without its answer, with the exit status and the words for it.

use crate::json::Object;
use ghatumri::Refusal;

/// A fault in a line of text.
#[derive(Debug, PartialEq, Eq)]
pub struct Fault {
    pub line: usize,
    /// The refusal's number, if the line reads as a route.
    pub refused: Option<u8>,
    pub meaning: String,
}

/// At most so many faults of a text are reported.
const MOST_FAULTS: usize = 20;

#[derive(Debug, PartialEq, Eq)]
pub enum Stop {
    /// The library refuses what is in a file: its number, the index, and what it means here.
    Refused { file: String, number: u8, index: Option<u32>, meaning: String },
    /// A text has faults.
    Faults { file: String, faults: Vec<Fault> },
    /// The question could not be asked.
    Trouble(String),
    /// Two ways to one number disagree.
    Disagreement(String),
}

pub type Done<T> = Result<T, Stop>;

impl Stop {
    /// A refusal, and what it means here.
    pub fn refused(file: &str, refusal: Refusal, meaning: impl Into<String>) -> Stop {
        Stop::Refused { file: file.into(), number: refusal.number(), index: refusal.index, meaning: meaning.into() }
    }

    pub fn status(&self) -> u8 {
        match self {
            Stop::Refused { .. } | Stop::Faults { .. } => 1,
            Stop::Trouble(_) => 2,
            Stop::Disagreement(_) => 3,
        }
    }

    /// What standard error gets, line by line, without the program's name.
    pub fn lines(&self) -> Vec<String> {
        match self {
            Stop::Refused { file, number, index, meaning } => {
                let at = index.map_or(String::new(), |i| format!(" at {i}"));
                vec![format!("{file}: refused {number}{at}: {meaning}")]
            }
            Stop::Faults { file, faults } => {
                let told = faults.iter().take(MOST_FAULTS);
                let mut lines: Vec<String> = told.map(|f| format!("{file}:{}: {}", f.line, f.text())).collect();
                if faults.len() > MOST_FAULTS {
                    lines.push(format!("{file}: {} more faults", faults.len() - MOST_FAULTS));
                }
                lines
            }
            Stop::Trouble(text) => vec![text.clone()],
            Stop::Disagreement(text) => vec![format!("do not rely on this output: {text}")],
        }
    }

    /// The object that takes the answer's place under `--json`; trouble and disagreements have none.
    pub fn object(&self, command: &str) -> Option<Object> {
        let object = Object::new().with("command", command);
        match self {
            Stop::Refused { number, index, meaning, .. } => {
                Some(object.with("refused", *number).with("index", *index).with("meaning", meaning.as_str()))
            }
            Stop::Faults { faults, .. } => {
                let fault = |f: &Fault| {
                    Object::new().with("line", f.line).with("refused", f.refused).with("meaning", f.meaning.as_str())
                };
                Some(object.with("faults", faults.iter().map(fault).collect::<Vec<_>>()))
            }
            Stop::Trouble(_) | Stop::Disagreement(_) => None,
        }
    }
}

impl Fault {
    fn text(&self) -> String {
        match self.refused {
            Some(number) => format!("refused {number}: {}", self.meaning),
            None => self.meaning.clone(),
        }
    }
}
