//! What answers questions on a table: goscript's functions, and the proved library beside them.

use std::{panic, thread};

/// What is said where there is no goscript to compare with.
pub const NOT_AT_HAND: &str = "goscript's files are not at hand: nothing compared";

/// Answers questions on the table that it holds.
pub trait Engine {
    fn name(&self) -> &str;

    /// Takes a table text in place of the one before; nothing if it can't be read.
    fn load(&mut self, table: &str) -> Option<()>;

    /// The answer to a question line on the table loaded; nothing if it can't be read.
    fn ask(&mut self, question: &str) -> Option<String>;

    /// Takes a table text and answers questions on it, a line each, one after the other; nothing if it can't be read, or a
    /// question can't.
    fn ask_all(&mut self, table: &str, questions: &str) -> Option<String> {
        self.load(table)?;
        questions
            .lines()
            .map(|question| self.ask(question))
            .collect()
    }

    /// Whether a question is answered from what a load left, or the table text is loaded again for it.
    fn keeps_tables(&self) -> bool {
        true
    }
}

/// The bytes of a stack on which goscript answers every hard table that it is asked: it nests a call for each pair of
/// types that it meets, and does so for thousands.
const STACK: usize = 64 << 20;

/// Runs something on a thread with such a stack.
pub fn on_large_stack(run: impl FnOnce() + Send + 'static) {
    let thread = thread::Builder::new().stack_size(STACK).spawn(run);
    let ended = thread.expect("a thread starts").join();
    ended.unwrap_or_else(|panic| panic::resume_unwind(panic));
}

/// goscript's functions, if its files were at hand when this was built.
pub fn goscript() -> Option<Box<dyn Engine>> {
    #[cfg(goscript)]
    return Some(Box::<OfGoscript>::default());
    #[cfg(not(goscript))]
    None
}

/// goscript's functions over the objects of the table loaded.
#[cfg(goscript)]
#[derive(Default)]
struct OfGoscript(Option<crate::objects::Goscript>);

#[cfg(goscript)]
impl Engine for OfGoscript {
    fn name(&self) -> &str {
        "goscript"
    }

    fn load(&mut self, table: &str) -> Option<()> {
        self.0 = Some(crate::objects::build(table)?);
        Some(())
    }

    fn ask(&mut self, question: &str) -> Option<String> {
        crate::answers::answer(self.0.as_mut()?, question)
    }
}

/// The proved library, if this was built with it.
pub fn library() -> Option<Box<dyn Engine>> {
    #[cfg(feature = "library")]
    return Some(Box::<OfLibrary>::default());
    #[cfg(not(feature = "library"))]
    None
}

/// The library's calls. They keep nothing, so that each question that is asked alone loads the table text.
#[cfg(feature = "library")]
#[derive(Default)]
struct OfLibrary {
    table: String,
    answers: yifgrun::Answers,
}

#[cfg(feature = "library")]
impl Engine for OfLibrary {
    fn name(&self) -> &str {
        "yifgrun"
    }

    fn load(&mut self, table: &str) -> Option<()> {
        self.table.clear();
        self.table.push_str(table);
        self.ask("V").map(|_| ())
    }

    fn ask(&mut self, question: &str) -> Option<String> {
        let answer = self.answers.ask(self.table.as_bytes(), question.as_bytes());
        Some(text(answer.ok()?))
    }

    /// In one call, which loads the table once. A question that is refused has a line `refused`.
    fn ask_all(&mut self, table: &str, questions: &str) -> Option<String> {
        let answers = self.answers.ask_all(table.as_bytes(), questions.as_bytes());
        Some(text(answers.ok()?))
    }

    fn keeps_tables(&self) -> bool {
        false
    }
}

#[cfg(feature = "library")]
fn text(answers: &[u8]) -> String {
    String::from_utf8(answers.to_vec()).expect("answers are text")
}
