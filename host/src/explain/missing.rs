//! The words of N: which method of an interface a type lacks, and what it has in its place.

use super::contents::{Contents, Kind, Role};
use super::select::{self, Selector};
use crate::{Answer, Library, Question, Refusal, Satisfaction, Selection, Type};

/// What N asks.
pub struct Asked {
    pub of: Type,
    pub interface: Type,
    pub is_static: bool,
}

pub fn words(
    library: &mut Library,
    contents: &Contents,
    asked: &Asked,
    satisfaction: Satisfaction,
) -> Result<String, Refusal> {
    let (of, interface) = (asked.of, asked.interface);
    let (method, wrong_type) = match satisfaction {
        Satisfaction::Satisfied => return Ok(satisfied(contents, asked)),
        Satisfaction::Missing { method, wrong_type } => (method, wrong_type),
    };
    let line = contents.member(method);
    let (name, of_interface) = (
        line.name,
        format!("member {method} of interface type {interface}"),
    );
    if wrong_type {
        return Ok(format!(
            "type {of} has {name} with another type than {of_interface}\n"
        ));
    }
    let selector = Selector {
        receiver: of,
        package: line.package,
        name,
    };
    let instead = instead(library, contents, &selector)?;
    Ok(format!("type {of} lacks {name}, {of_interface}{instead}\n"))
}

/// Of an interface only some value may have the methods, if no more was asked.
fn satisfied(contents: &Contents, asked: &Asked) -> String {
    let (of, interface) = (asked.of, asked.interface);
    let every = format!("every method of interface type {interface}\n");
    let is_interface = contents.underlying_kind(of) == Kind::Interface;
    if is_interface && !asked.is_static {
        return format!("a value of type {of} may have {every}");
    }
    format!("type {of} has {every}")
}

/// What the type has of the method's name, or why nothing.
fn instead(
    library: &mut Library,
    contents: &Contents,
    selector: &Selector,
) -> Result<String, Refusal> {
    let (receiver, package, name) = (selector.receiver, selector.package, selector.name);
    Ok(
        match library.ask(&Question::select(receiver, true, package, name))? {
            Answer::Selection(Selection::Entry { member, way, .. }) => {
                let named = contents.named(&contents.way(receiver, &way), member);
                let what = match contents.member(member).role {
                    Role::PointerMethod => "has a pointer receiver".to_owned(),
                    role => format!("is {role}"),
                };
                format!("; its {named}, member {member}, {what}")
            }
            Answer::Selection(Selection::Ambiguous { first, second }) => {
                let [first, second] = [first, second].map(|places| {
                    let way = contents.way(receiver, &places);
                    contents.named(&way, contents.end_of(&way, name, package))
                });
                format!("; its {first} and {second} are of the same depth")
            }
            _ => select::cause(library, contents, selector),
        },
    )
}
