//! What is due for stored inputs of `typeask`, as points of document 02 come into force after those that they were
//! stored with.

// Each test takes what it needs.
#![allow(dead_code)]

pub mod ordered;

/// What is due for an input, given what was printed for it; nothing where that can't be told.
pub type Due = fn(&[u8], &[u8]) -> Option<Vec<u8>>;

/// Where the base printed it: point 1 changes every answer `ambiguous`, point 2 may change a method set that lists
/// something, point 4 moves bounds.
pub fn of_base(input: &[u8], output: &[u8]) -> Option<Vec<u8>> {
    let due = of_point_1(input, output)?;
    (!begins_a_line(&due, b"ambiguous\t")).then_some(due)
}

/// Where it was printed with point 1 in force.
pub fn of_point_1(input: &[u8], output: &[u8]) -> Option<Vec<u8>> {
    let due = of_point_2(input, output)?;
    (!begins_a_line(&due, b"sel\t")).then_some(due)
}

/// With points 1 and 2. What a bound refused may load now: 2 is a text that is too long, 6 is too many of something. No
/// such table is taken, also where the bound is one that stays.
pub fn of_point_2(input: &[u8], output: &[u8]) -> Option<Vec<u8>> {
    let due = of_point_4(input, output)?;
    (!is_refused_by(&due, 2) && !is_refused_by(&due, 6)).then_some(due)
}

/// With points 1 to 4. By point 5 a table whose lines have all passed 4, 5 and 6 is refused by 14 where its packages are out
/// of order, whatever was printed for it before.
pub fn of_point_4(input: &[u8], output: &[u8]) -> Option<Vec<u8>> {
    match disorder(input, output) {
        Some(line) => Some(format!("refused\t14\t{line}\n").into_bytes()),
        None => of_point_5(input, output),
    }
}

/// With points 1 to 5.
pub fn of_point_5(_input: &[u8], output: &[u8]) -> Option<Vec<u8>> {
    Some(output.to_vec())
}

/// The line that point 5 refuses, of a table that 2 to 6 do not: the first package whose path is not above the one before.
fn disorder(input: &[u8], output: &[u8]) -> Option<usize> {
    let passed = !(2..=6).any(|number| is_refused_by(output, number));
    let paths = packages(input);
    let fall = paths.windows(2).position(|pair| pair[1] <= pair[0]);
    // the first two packages are on the lines 2 and 3
    fall.filter(|_| passed).map(|before| before + 3)
}

/// The paths of the P lines that stand right behind the first line.
fn packages(input: &[u8]) -> Vec<&[u8]> {
    let lines = input.split(|&b| b == b'\n').skip(1);
    lines.map_while(|line| line.strip_prefix(b"P\t")).collect()
}

fn is_refused_by(output: &[u8], number: usize) -> bool {
    output.starts_with(format!("refused\t{number}\t").as_bytes())
}

fn begins_a_line(output: &[u8], with: &[u8]) -> bool {
    let mut lines = output.split(|&b| b == b'\n');
    lines.any(|line| line.starts_with(with))
}
