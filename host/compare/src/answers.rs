//! goscript's answers in the bytes of document 01.

use crate::goscript::lookup::{lookup_field_or_method, missing_method, LookupResult, MethodSet};
use crate::goscript::objects::ObjKey;
use crate::goscript::typ;
use crate::objects::Goscript;
use crate::question::Question;
use crate::standin::check::Checker;

/// goscript's answer to a question line, if the line can be read.
pub fn answer(goscript: &mut Goscript, line: &str) -> Option<String> {
    Question::parse(line).map(|question| goscript.answer(&question))
}

impl Goscript {
    pub fn answer(&mut self, question: &Question) -> String {
        match *question {
            Question::Selection {
                t,
                addressable,
                package,
                name,
            } => self.selection(t, addressable, package, name),
            Question::MethodSet { t } => self.method_set(t),
            Question::Missing { t, i, strict } => self.missing(t, i, strict),
            Question::Identical { x, y } => {
                yes_or_no(typ::identical(self.types[x], self.types[y], &self.objs))
            }
            Question::Comparable { t } => yes_or_no(typ::comparable(self.types[t], &self.objs)),
            Question::Counts => self.counts(),
        }
    }

    fn selection(&self, t: usize, addressable: bool, package: Option<usize>, name: &str) -> String {
        let package = package.map(|p| self.packages[p]);
        match lookup_field_or_method(self.types[t], addressable, package, name, &self.objs) {
            LookupResult::Entry(found, places, flag) => self.way("entry", found, flag, &places),
            LookupResult::Ambiguous(places) => line("ambiguous", &places),
            LookupResult::BadMethodReceiver => "badreceiver\n".to_owned(),
            LookupResult::NotFound => "notfound\n".to_owned(),
        }
    }

    fn method_set(&mut self, t: usize) -> String {
        let set = MethodSet::new(&self.types[t], &mut self.objs);
        let mut text = line("set", &[set.list().len()]);
        for sel in set.list() {
            text += &self.way("sel", sel.obj(), *sel.indirect(), sel.indices());
        }
        text
    }

    fn missing(&mut self, t: usize, i: usize, strict: bool) -> String {
        let (t, i) = (self.types[t], self.types[i]);
        let (mut checker, mut context) = Checker::of(&mut self.objs);
        match missing_method(t, i, strict, &mut checker, &mut context) {
            Some((method, wrong)) => line("missing", &[self.member_of[&method], wrong.into()]),
            None => "satisfied\n".to_owned(),
        }
    }

    /// V has no counterpart in goscript: the counts are those of the objects built.
    fn counts(&self) -> String {
        let (packages, types) = (self.packages.len(), self.types.len());
        line("ok", &[packages, types, self.member_of.len()])
    }

    fn way(&self, word: &str, found: ObjKey, flag: bool, places: &[usize]) -> String {
        let mut numbers = vec![self.member_of[&found], flag.into()];
        numbers.extend(places);
        line(word, &numbers)
    }
}

fn yes_or_no(yes: bool) -> String {
    if yes { "yes\n" } else { "no\n" }.to_owned()
}

/// A word and numbers, parted by tabs.
fn line(word: &str, numbers: &[usize]) -> String {
    let mut text = word.to_owned();
    for number in numbers {
        text.push('\t');
        text += &number.to_string();
    }
    text.push('\n');
    text
}
