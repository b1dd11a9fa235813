//! The words of S: the way to a field or method by its names, or why there is none.

use super::contents::Contents;
use super::way::is_exported;
use crate::{Answer, Library, Package, Question, Refusal, Selection, Type};

/// What is selected from: a type, a package that asks, a name.
pub struct Selector<'q> {
    pub receiver: Type,
    pub package: Option<Package>,
    pub name: &'q str,
}

impl Selector<'_> {
    /// What this selector means of a variable, in a package.
    fn asked_from(&self, package: Option<Package>) -> Question {
        Question::select(self.receiver, true, package, self.name)
    }
}

/// The words of a selection.
pub fn words(
    library: &mut Library,
    contents: &Contents,
    selector: &Selector,
    selection: &Selection,
) -> Result<String, Refusal> {
    Ok(match selection {
        Selection::Entry {
            member,
            indirect,
            way,
        } => {
            let way = contents.way(selector.receiver, way);
            contents.told(&way, *member, *indirect) + "\n"
        }
        Selection::BadReceiver => bad_receiver(library, contents, selector)?,
        Selection::Ambiguous { first, second } => {
            let [first, second] = [first, second].map(|way| end(contents, selector, way));
            format!("ambiguous: two of the same depth\n{first}\n{second}\n")
        }
        Selection::NotFound => {
            let cause = cause(library, contents, selector);
            format!(
                ".{}: no field or method of that name{cause}\n",
                selector.name
            )
        }
    })
}

/// The words of one way of an ambiguous name, whose member and flag the answer does not tell.
fn end(contents: &Contents, selector: &Selector, places: &[usize]) -> String {
    let way = contents.way(selector.receiver, places);
    let member = contents.end_of(&way, selector.name, selector.package);
    contents.told(&way, member, way.indirect)
}

/// The method that a variable would have.
fn bad_receiver(
    library: &mut Library,
    contents: &Contents,
    selector: &Selector,
) -> Result<String, Refusal> {
    let told = match library.ask(&selector.asked_from(selector.package))? {
        Answer::Selection(Selection::Entry { member, way, .. }) => {
            contents.told(&contents.way(selector.receiver, &way), member, false)
        }
        other => panic!("a method that a variable lacks: {other:?}"),
    };
    let cause = "the operand is not addressable and no pointer is on the way";
    Ok(format!("{told}; {cause}\n"))
}

/// Why a name is not found, where more is to be said than that it is not there.
pub fn cause(library: &mut Library, contents: &Contents, selector: &Selector) -> String {
    if selector.name == "_" {
        return "; the blank name is never found".to_owned();
    }
    if contents.is_pointer_to_interface(selector.receiver) {
        return "; the type is a pointer to an interface".to_owned();
    }
    if has_methods_without_name(library, contents, selector) {
        return "; a named pointer type has no methods".to_owned();
    }
    let others = in_other_packages(library, contents, selector);
    if others.is_empty() {
        return others.concat();
    }
    format!("; there is one {}", others.join(" and "))
}

/// Whether a type is a name of a pointer type, and that pointer type has what is asked for.
fn has_methods_without_name(
    library: &mut Library,
    contents: &Contents,
    selector: &Selector,
) -> bool {
    let pointer = Selector {
        receiver: contents.underlying(selector.receiver),
        ..*selector
    };
    let is_name = pointer.receiver != selector.receiver;
    let not_found = Ok(Answer::Selection(Selection::NotFound));
    is_name && library.ask(&pointer.asked_from(selector.package)) != not_found
}

/// The packages in which the name is found, if it is one that each package has for itself.
fn in_other_packages(
    library: &mut Library,
    contents: &Contents,
    selector: &Selector,
) -> Vec<String> {
    if is_exported(selector.name) {
        return Vec::new();
    }
    let numbers = (0..).take(contents.paths.len()).map(Package);
    let packages: Vec<_> = numbers.map(Some).chain([None]).collect();
    let questions: Vec<_> = packages.iter().map(|&p| selector.asked_from(p)).collect();
    let not_found = Ok(Answer::Selection(Selection::NotFound));
    let answers = library.ask_all(&questions);
    let found = packages.iter().zip(answers);
    let found = found.filter(|(_, answer)| *answer != not_found);
    found.map(|(&package, _)| of(contents, package)).collect()
}

fn of(contents: &Contents, package: Option<Package>) -> String {
    match package {
        Some(number) => format!("of package {}", contents.paths[usize::from(number.0)]),
        None => "of no package".to_owned(),
    }
}
