//! Where M departs from goscript's `MethodSet::new` by document 02, point 2: it has no method that a field covers, and
//! nothing of a pointer to a named interface. Which methods a field covers goscript's own selection says.

use crate::engine::Engine;
use crate::question::Question;
use crate::table::{number, Kind, Table};

/// Why M leaves lines of goscript's set out.
#[derive(Clone, Copy, Debug, PartialEq, Eq)]
pub enum Departure {
    /// A field of the name is less deep than the method.
    Covered,
    /// The type is a pointer to a named interface.
    NamedInterface,
}

/// The answer that is due where goscript, which holds the table, gives this one, and why the two are not the same.
pub fn due(
    goscript: &mut dyn Engine,
    table: &Table,
    question: &str,
    answer: String,
) -> (String, Option<Departure>) {
    let Some(Question::MethodSet { t }) = Question::parse(question) else {
        return (answer, None);
    };
    let lines: Vec<&str> = answer.split_inclusive('\n').skip(1).collect();
    if !lines.is_empty() && points_to_named_interface(table, t) {
        return (set(&[]), Some(Departure::NamedInterface));
    }
    let left = |line: &&str| !is_covered(goscript, table, t, line);
    let kept: Vec<&str> = lines.iter().copied().filter(left).collect();
    let departs = (kept.len() < lines.len()).then_some(Departure::Covered);
    (set(&kept), departs)
}

/// The answer of a set with these lines.
fn set(lines: &[&str]) -> String {
    format!("set\t{}\n{}", lines.len(), lines.concat())
}

fn points_to_named_interface(table: &Table, t: usize) -> bool {
    let Kind::Pointer(e) = table.types[t].kind else {
        return false;
    };
    matches!(table.types[e].kind, Kind::Named(u) if table.types[u].kind == Kind::Iface)
}

/// A line `sel` of a method whose name selects a field.
fn is_covered(goscript: &mut dyn Engine, table: &Table, t: usize, line: &str) -> bool {
    let answer = selected(goscript, table, t, true, member_of(line));
    let Some(found) = answer.strip_prefix("entry\t") else {
        return false;
    };
    let found = number(found.split('\t').next().expect("a member")).expect("a number");
    let structs = table.types.iter().filter(|t| t.kind == Kind::Struct);
    structs.into_iter().any(|t| t.members.contains(&found))
}

/// The member that a line of an answer names first.
pub fn member_of(line: &str) -> usize {
    let field = line.split('\t').nth(1).expect("a member");
    number(field).expect("a number")
}

/// What S says of the name of a member, asked from its own package.
pub fn selected(
    engine: &mut dyn Engine,
    table: &Table,
    t: usize,
    addressable: bool,
    member: usize,
) -> String {
    let m = &table.members[member];
    let pkg = m.package.map_or("-".to_owned(), |p| p.to_string());
    let question = format!("S\t{t}\t{}\t{pkg}\t{}", u8::from(addressable), m.name);
    engine.ask(&question).expect("an answer")
}

#[cfg(test)]
mod tests {
    use super::*;
    use crate::engine;

    /// What is due for a question, and why; blanks stand for tabs.
    fn due_for(table: &str, question: &str) -> Option<(String, Option<Departure>)> {
        let tabbed = |text: &str| text.replace(' ', "\t");
        let text = tabbed(&format!("typetable 1\n{table}"));
        let mut goscript = engine::goscript()?;
        goscript.load(&text).expect("it loads");
        let answer = goscript.ask(&tabbed(question)).expect("an answer");
        let table = Table::parse(&text).expect("a table");
        let (due, departs) = due(goscript.as_mut(), &table, &tabbed(question), answer);
        Some((due.replace('\t', " "), departs))
    }

    fn assert_due(table: &str, question: &str, due: &str, departs: Option<Departure>) {
        if let Some(found) = due_for(table, question) {
            assert_eq!(found, (due.to_owned(), departs), "{table}{question}");
        }
    }

    /// 5 has the fields X and Z and embeds 4, which has the methods X and Y.
    const COVERED: &str = "T basic 2\nT tuple\nT func 0 1 1\nT struct\nT named 3\nM X - 2 0\nM Y - 2 0\nT struct\nF X - 0 0\nF K - 4 1\nF Z - 0 0\n";

    #[test]
    fn a_covered_method_is_left_out() {
        let covered = Some(Departure::Covered);
        assert_due(COVERED, "M 5", "set 1\nsel 1 0 1 1\n", covered);
        assert_due(COVERED, "M 4", "set 2\nsel 0 0 0\nsel 1 0 1\n", None);
    }

    #[test]
    fn a_pointer_to_a_named_interface_has_none() {
        let table = "T tuple\nT func 0 0 0\nT iface\nM X - 1 0\nT named 2\nT pointer 3\nT pointer 2\nT iface\nT named 6\nT pointer 7\n";
        assert_due(table, "M 4", "set 0\n", Some(Departure::NamedInterface));
        for (question, due) in [("M 3", "set 1\nsel 0 1 0\n"), ("M 5", "set 0\n")] {
            assert_due(table, question, due, None);
        }
        // an interface without methods: both sets are empty
        assert_due(table, "M 8", "set 0\n", None);
    }

    #[test]
    fn other_answers_are_due_as_they_are() {
        assert_due(COVERED, "S 5 0 - X", "entry 2 0 0\n", None);
        assert_due(COVERED, "C 3", "yes\n", None);
    }
}
