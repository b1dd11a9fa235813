//! goscript and the library on the same questions.

use crate::agreement::{agrees_with, Agreed};
use crate::departures::due;
use crate::engine::Engine;
use crate::many;
use crate::table::Table;
use yifgrun::work_words;

/// Counts how the answers of goscript and the library agree; where two do not, gives the table, the question and both. The
/// library's answers to all questions in one call are the same again.
pub fn hold(
    (goscript, library): (&mut (dyn Engine + 'static), &mut (dyn Engine + 'static)),
    table: &str,
    questions: &[String],
    agreed: &mut Agreed,
) -> Result<(), String> {
    for engine in [&mut *goscript, &mut *library] {
        if engine.load(table).is_none() {
            return Err(format!("{table}\n{} does not load it", engine.name()));
        }
    }
    let parsed = Table::parse(table).expect("what loads is a table");
    let mut all = Vec::new();
    for question in questions {
        let (theirs, ours) = (goscript.ask(question), library.ask(question));
        let both = theirs.clone().zip(ours.as_ref());
        let how = both.and_then(|(theirs, ours)| {
            let (due, departs) = due(goscript, &parsed, question, theirs);
            agrees_with((&due, departs), ours)
        });
        let Some(how) = how else {
            let (one, other) = (goscript.name(), library.name());
            let answers = format!("{one}: {theirs:?}\n{other}: {ours:?}");
            return Err(format!("{table}\n{question}\n{answers}"));
        };
        agreed.count(how);
        all.extend(ours.unwrap_or_default().into_bytes());
    }
    let text = questions.join("\n");
    let asked = (table.as_bytes(), text.as_bytes());
    many::hold(asked, 0, work_words(), &Ok(all))
        .map_err(|difference| format!("{table}\n{text}\n{difference}"))
}
