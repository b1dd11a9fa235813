//! A Go package whose types go up to the limits of a table, and past them.

use std::fmt::Write;

/// So many lines, each made of its number.
fn lines(count: usize, line: impl Fn(usize) -> String) -> String {
    (0..count).fold(String::new(), |mut all, i| {
        writeln!(all, "{}", line(i)).expect("a string takes a line");
        all
    })
}

fn strukt(name: &str, fields: &str) -> String {
    format!("type {name} struct {{\n{fields}}}\n")
}

/// A struct of so many fields, of names that no other struct has.
fn wide(name: &str, fields: usize) -> String {
    strukt(name, &lines(fields, |i| format!("{name}_{i} int")))
}

/// A name of so many bytes that ends in a number.
fn long_name(letter: &str, number: usize, bytes: usize) -> String {
    format!("{letter}{number:0width$}", width = bytes - letter.len())
}

/// A struct of so many fields, with the longest names and tags.
fn heavy(name: &str, fields: usize) -> String {
    let tag = "t".repeat(128);
    let field = |i| format!("{} int `{tag}`", long_name(name, i, 64));
    strukt(name, &lines(fields, field))
}

fn methods(name: &str, methods: usize) -> String {
    let method = |i| format!("func (x {name}) {}() {{}}", long_name("M", i, 64));
    lines(methods, method)
}

/// The package: its path is `limits`. Each type has a selector in `Use`.
pub fn package() -> String {
    let tags = [
        ("A", "t".repeat(128)),
        ("B", "t".repeat(129)),
        ("C", "ä".to_owned()),
    ];
    let tagged = tags
        .map(|(name, tag)| format!("{name} int `{tag}`\n"))
        .concat();
    let parts = [
        "package limits\n".to_owned(),
        // These stand: a type's own name is not in the table, tags and array lengths are left off or cut.
        wide("Wide", 255),
        strukt("Länge", &format!("{} int\n", long_name("F", 1, 64))),
        strukt("Tagged", &tagged),
        strukt("Large", "A [1 << 40]byte\n"),
        heavy("Half", 200) + &heavy("OtherHalf", 200),
        lines(9, |i| wide(&format!("Wide{i}"), 250)),
        lines(600, |i| {
            format!("type Small{i} struct {{ *Wide; F{i} [{i}]int }}")
        }),
        // These do not.
        wide("Wider", 256),
        strukt("Long", &format!("{} int\n", long_name("F", 1, 65))),
        strukt("Umlaut", "Länge int\n"),
        strukt("Mixed", &lines(171, |i| format!("F{i} func([{i}]int)"))),
        strukt("Deep", &lines(9, |i| format!("Wide{i}"))),
        heavy("Heavy", 255) + &methods("Heavy", 200),
        uses(),
    ];
    parts.concat()
}

fn uses() -> String {
    let long = long_name("F", 1, 64);
    let longer = long_name("F", 1, 65);
    format!(
        "func Use(w Wide, l Länge, t Tagged, a Large, s Small599, x Wider, y Long, u Umlaut, m Mixed, d Deep, h *Heavy) {{\n\
         _, _, _, _, _, _ = w.Wide_254, l.{long}, t.C, a.A, s.Wide_0, s.F599\n\
         _, _, _, _, _ = x.Wider_0, y.{longer}, u.Länge, m.F0, d.Wide8_0\n\
         h.{}()\n}}\n",
        long_name("M", 7, 64)
    )
}

/// What gotable says of it. Bytes, types and members each part tables.
pub const SAID: &str = "limits: tables 7, types 2466, members 5130, selectors 12, S 6, M 1238, every 0, shared 0, \
    left out 6 (name not ASCII or too long 2, too many members of one type 1, too many types 1, too many members 1, \
    too many bytes 1), \
    types left out 6 (name not ASCII or too long 2, too many members of one type 1, too many types 1, \
    too many members 1, too many bytes 1)\n";
