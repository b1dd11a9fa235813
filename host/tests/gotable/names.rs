//! The texts for people, which lead from a table back to the source.

use crate::answers::Pair;

/// A line `line N: PLACE: QUESTION`: the place in the source where a selector asked a question of the table first.
pub struct Source<'a> {
    number: usize,
    /// Import path and name of a file, line and column.
    pub place: [&'a str; 3],
    question: &'a str,
}

fn source(line: &str) -> Option<Source<'_>> {
    let (number, rest) = line.strip_prefix("line ")?.split_once(": ")?;
    let (place, question) = rest.split_once(": ")?;
    let mut parts = place.split(':');
    let place = [parts.next()?, parts.next()?, parts.next()?];
    Some(Source {
        number: number.parse().ok()?,
        place,
        question,
    })
}

impl Source<'_> {
    /// The name that is asked for.
    pub fn name(&self) -> &str {
        self.question.rsplit(' ').next().expect("a question")
    }
}

/// The places in the source that a pair names. They stand behind the types.
pub fn sources(pair: &Pair) -> Vec<Source<'_>> {
    let lines = pair.names.lines().skip_while(|line| is_type(line));
    let each = lines.map(|line| source(line).unwrap_or_else(|| panic!("{}: {line}", pair.name)));
    each.collect()
}

fn is_type(line: &str) -> bool {
    line.starts_with("type ")
}

/// Holds the names of a pair against its table and its questions, and gives the number of places in the source.
pub fn check(pair: &Pair) -> usize {
    let name = &pair.name;
    let types = pair.input.lines().filter(|line| line.starts_with("T\t"));
    let named = pair.names.lines().filter(|line| is_type(line));
    for (number, line) in named.clone().enumerate() {
        assert!(
            line.starts_with(&format!("type {number}: ")),
            "{name}: {line}"
        );
    }
    assert_eq!(named.count(), types.count(), "{name}");
    let lines: Vec<&str> = pair.input.lines().collect();
    let sources = sources(pair);
    for source in &sources {
        let asked = lines[source.number - 1].replace('\t', " ");
        assert_eq!(source.question, asked, "{name}: line {}", source.number);
        assert!(!source.place[0].starts_with('/'), "{name}: a whole path");
        assert!(asked.starts_with("S "), "{name}: {asked}");
    }
    sources.len()
}
