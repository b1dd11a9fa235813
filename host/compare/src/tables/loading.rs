//! Tables that take long to load.

use super::{field, Case};
use crate::bounds;
use crate::table::{Kind, Member, Table};

/// Texts that take long to load, with the question V.
pub fn long_loads() -> [Case; 5] {
    let counts = || vec!["V".to_owned()];
    let mut alike = Table::default();
    let int = alike.put(Kind::Basic(2), []);
    let common = "n".repeat(61);
    alike.put_struct((0..255).map(|k| field(format!("{common}{k:03}"), int, false)));
    let mut many = Table::default();
    let int = many.put(Kind::Basic(2), []);
    for _ in 0..4 {
        many.put_struct((0..255).map(|k| field(format!("f{k}"), int, false)));
    }
    let mut paths = Table::default();
    let common = "p".repeat(126);
    paths.packages = (0..bounds::PACKAGES)
        .map(|k| format!("{common}{k:02}"))
        .collect();
    // Each named type stands for the array behind it, which has the next named type in it.
    let mut rising = Table::default();
    for k in 0..127 {
        rising.put(Kind::Named(2 * k + 1), []);
        rising.put(Kind::Array(1, 2 * k + 2), []);
    }
    rising.put(Kind::Named(255), []);
    rising.put(Kind::Basic(2), []);
    [
        Case::new("255 fields whose names share 61 bytes, V", &alike, counts()),
        Case::new("four structs of 255 fields, V", &many, counts()),
        Case::new(
            "64 packages whose paths share 126 bytes, V",
            &paths,
            counts(),
        ),
        Case::new(
            "31 structs of 64 fields x of 64 packages, V",
            &shared_names(),
            counts(),
        ),
        Case::new("a chain by value of rising numbers, V", &rising, counts()),
    ]
}

/// Structs with a field `x` of each of 64 packages, whose paths part near their ends.
fn shared_names() -> Table {
    let mut table = Table::default();
    let (front, back) = ("p".repeat(120), "p".repeat(4));
    table.packages = (0..bounds::PACKAGES)
        .map(|k| format!("{front}{k:02}{back}"))
        .collect();
    let int = table.put(Kind::Basic(2), []);
    for _ in 0..31 {
        table.put_struct((0..bounds::PACKAGES).map(|k| Member {
            package: Some(k),
            ..field("x".to_owned(), int, false)
        }));
    }
    table
}

/// One tuple of so many elements.
pub fn long_tuple(name: &str, elements: usize) -> Case {
    let mut table = Table::default();
    let int = table.put(Kind::Basic(2), []);
    table.put(Kind::Tuple(vec![int; elements]), []);
    Case::new(name, &table, vec!["V".to_owned()])
}
