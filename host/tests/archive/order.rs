//! Refusal 14, package out of order: the P lines' paths must ascend by their bytes, each above the one on the line before.

use crate::bounds;
use crate::lent::asked;
use yifgrun::work_words;

/// What loading gives: the counts that V answers, or the number and line of a refusal.
type Loading = Result<String, (u8, u16)>;

fn loading(table: &str) -> Loading {
    let mut answer = [0; 80];
    let (table, work) = (table.as_bytes(), &mut vec![0; work_words()]);
    let length = asked(table, b"V", &mut answer, work).map_err(|r| (r.number(), r.line))?;
    Ok(String::from_utf8_lossy(&answer[..length]).into_owned())
}

/// A table of packages and, behind them, other lines, whose blanks stand for tabs.
fn table(paths: &[&str], behind: &str) -> String {
    let packages: String = paths.iter().map(|path| format!("P\t{path}\n")).collect();
    format!("typetable\t1\n{packages}{}", behind.replace(' ', "\t"))
}

/// Paths in order load; of others the first that is not above the one just before is named, by its line.
#[test]
fn paths_ascend_by_their_bytes() {
    let rows: [(&[&str], u16); 17] = [
        (&["a"], 0),
        (&["a", "b", "c"], 0),
        (&["b", "a"], 3),
        (&["a", "a"], 3),
        (&["a", "b", "b"], 4),
        // a longer path comes after its prefix
        (&["a", "a/b", "ab"], 0),
        (&["ab", "a"], 3),
        // capitals come before small letters
        (&["B", "a"], 0),
        (&["a", "B"], 3),
        // bytes, and not numbers
        (&["p1", "p10", "p9"], 0),
        (&["p10", "p9", "p11"], 4),
        (&["!", "+", "-", ".", "/", "0", "A", "_a", "a", "~"], 0),
        // each is compared with the one just before, and not with the first
        (&["b", "c", "a"], 4),
        (&["a", "c", "b"], 4),
        (&["b", "c", "a", "d", "d"], 4),
        // a path that recurs further on
        (&["a", "b", "a"], 4),
        (&["a", "b", "c", "d", "d/x", "d/"], 7),
    ];
    for (paths, line) in rows {
        let due = match line {
            0 => Ok(format!("ok\t{}\t0\t0\n", paths.len())),
            _ => Err((14, line)),
        };
        assert_eq!(loading(&table(paths, "")), due, "{paths:?}");
    }
}

/// The longest paths, told apart by any one of their bytes.
#[test]
fn every_byte_of_a_path_counts() {
    const LONGEST: usize = 128;
    let low = "b".repeat(LONGEST);
    for at in 0..LONGEST {
        let high = format!("{}c{}", &low[..at], "a".repeat(LONGEST - at - 1));
        let due = Ok("ok\t2\t0\t0\n".to_owned());
        assert_eq!(loading(&table(&[&low, &high], "")), due, "{at}");
        assert_eq!(loading(&table(&[&high, &low], "")), Err((14, 3)), "{at}");
        let cut = &low[..LONGEST - at];
        let (ordered, other) = (table(&[cut, &low], ""), table(&[&low, cut], ""));
        assert_eq!(loading(&ordered).is_ok(), at > 0, "{at}");
        assert_eq!(loading(&other), Err((14, 3)), "{at}");
    }
}

/// After every line has passed 4, 5 and 6, and before 7: the same lines behind packages in order and out of order.
#[test]
fn the_order_is_judged_after_6_and_before_7() {
    let many = "T struct\n".repeat(bounds::TYPES + 1);
    let many_at = u16::try_from(3 + bounds::TYPES + 1).expect("a line");
    let rows = [
        ("x\n", (4, 4), (4, 4)),
        ("T struct", (4, 4), (4, 4)),
        ("T struct\nP c\n", (5, 5), (5, 5)),
        ("F X - 0 0\n", (5, 4), (5, 4)),
        (&many, (6, many_at), (6, many_at)),
        ("T slice 9\n", (7, 4), (14, 3)),
        ("T struct\nF X 2 0 0\n", (7, 5), (14, 3)),
        ("T tuple\nT slice 0\n", (8, 5), (14, 3)),
        (
            "T basic 2\nT struct\nF x 0 0 0\nF x 0 0 0\n",
            (9, 7),
            (14, 3),
        ),
        ("T named 1\nT array 1 0\n", (10, 4), (14, 3)),
    ];
    for (behind, ordered, other) in rows {
        assert_eq!(
            loading(&table(&["a", "b"], behind)),
            Err(ordered),
            "{behind}"
        );
        assert_eq!(loading(&table(&["b", "a"], behind)), Err(other), "{behind}");
        assert_eq!(loading(&table(&["a", "a"], behind)), Err(other), "{behind}");
    }
}

/// As many packages as a table may have, in order and not; one more is 6, whatever their order.
#[test]
fn as_many_packages_as_there_may_be() {
    let paths: Vec<String> = (0..=bounds::PACKAGES).map(|n| format!("p{n:02}")).collect();
    let paths: Vec<&str> = paths.iter().map(|path| &**path).collect();
    let (all, past) = (
        &paths[..bounds::PACKAGES],
        u16::try_from(bounds::PACKAGES + 2),
    );
    let past = Err((6, past.expect("a line")));
    assert_eq!(loading(&table(all, "")), Ok("ok\t64\t0\t0\n".to_owned()));
    assert_eq!(loading(&table(&paths, "")), past);
    for at in 1..bounds::PACKAGES {
        let mut swapped = paths.clone();
        swapped.swap(at - 1, at);
        let line = u16::try_from(at + 2).expect("a line");
        let due = Err((14, line));
        assert_eq!(loading(&table(&swapped[..bounds::PACKAGES], "")), due);
        assert_eq!(loading(&table(&swapped, "")), past);
    }
}
