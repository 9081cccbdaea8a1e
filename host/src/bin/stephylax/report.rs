//! What a command reports: its answer as text or as JSON, or why there is none.

use crate::failure::{sentence, Failure};
use crate::json::Json;
use crate::output::put;
use crate::version;
use std::io::Write;

/// A command, and what it has found out so far. As JSON every command has this one form, answered or not.
#[derive(Default)]
pub struct Report {
    command: Option<String>,
    json: bool,
    given: bool,
    /// What was answered although something is refused.
    pub answer: Option<Json>,
    pub window: Option<Json>,
    pub sources: Vec<Json>,
}

impl Report {
    /// Whether JSON is asked for is known from the words alone, so that wrong use can be told in it too.
    pub fn begin(&mut self, words: &[String]) {
        self.json = words.iter().any(|word| word == "--json");
        self.command = words.iter().find(|word| !word.starts_with('-')).cloned();
    }

    pub fn is_json(&self) -> bool {
        self.json
    }

    /// Prints the answer in the form that is asked for.
    pub fn give(&mut self, text: &str, answer: Json) -> Result<(), Failure> {
        if self.json {
            return self.give_json(answer);
        }
        self.give_text(text)
    }

    pub fn give_text(&mut self, text: &str) -> Result<(), Failure> {
        self.given = true;
        put(text.as_bytes())
    }

    pub fn give_json(&mut self, answer: Json) -> Result<(), Failure> {
        self.given = true;
        put(format!("{}\n", self.document("answered", Some(answer), None)).as_bytes())
    }

    /// Tells on standard error why there is no answer, and as JSON on standard output too.
    pub fn fail(&mut self, failure: &Failure) {
        let outcome = match failure.status() {
            1 => "refused",
            2 => "wrong use",
            _ => "failed",
        };
        if self.json && !self.given && !matches!(failure, Failure::Output(_)) {
            // That standard output takes nothing is told by the same status.
            let answer = self.answer.take();
            let _ = put(format!("{}\n", self.document(outcome, answer, Some(failure))).as_bytes());
        }
        // Where standard error is closed there is nobody to tell.
        let _ = write!(std::io::stderr(), "stephylax: {}\n{}", failure.words(), failure.hint());
    }

    fn document(&mut self, outcome: &str, answer: Option<Json>, failure: Option<&Failure>) -> Json {
        let refusal = failure.and_then(refusal);
        let error = failure.filter(|_| refusal.is_none()).map(Failure::words);
        Json::Object(vec![
            ("command", self.command.take().into()),
            ("outcome", outcome.into()),
            ("answer", answer.into()),
            ("refusal", refusal.into()),
            ("error", error.into()),
            ("window", self.window.take().into()),
            ("sources", Json::List(std::mem::take(&mut self.sources))),
            ("version", version::json()),
        ])
    }
}

fn refusal(failure: &Failure) -> Option<Json> {
    let (number, figure, words, at) = match failure {
        Failure::Refused { refusal, at, .. } => {
            (refusal.number(), Some(refusal.figure()), sentence(*refusal), at.clone())
        }
        Failure::MountRefused(number) => (*number, None, failure.words(), None),
        _ => return None,
    };
    Some(Json::Object(vec![
        ("number", Json::Number(number as i64)),
        ("figure", figure.into()),
        ("words", words.into()),
        ("at", at.into()),
    ]))
}
