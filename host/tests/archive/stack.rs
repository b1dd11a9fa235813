//! The stack of the calls that nest deepest, measured, and on threads of 2 MiB and 1 MiB.

use crate::bounds;
use crate::lent::{asked, asked_all, tidied};
use crate::numbers::Numbers;
use crate::said::say;
use crate::typeask::Ask;
use std::ffi::c_void;
use std::thread;
use yifgrun::{work_words, Answers, Refusal};

/// A table, a question or a text of questions, and what is due for it.
struct Deep {
    name: String,
    table: String,
    question: String,
    due: String,
}

fn deep(name: &str, table: &str, question: &str, due: &str) -> Deep {
    let [name, table, question, due] = [name, table, question, due].map(str::to_owned);
    Deep {
        name,
        table,
        question,
        due,
    }
}

fn all_deep() -> Vec<Deep> {
    let mut all = vec![long_path(), long_path_of_methods(), nested_pairs(), rings()];
    // the second as high as there are types for, beside the one at the ground
    for height in [170, (bounds::TYPES - 1) / 2] {
        all.extend(towers(height));
    }
    all.extend(chain());
    all.push(arrays());
    all
}

/// So many levels are nested before pairs of interfaces are put off (`DEEP` in crates/typ/src/identical.rt).
const OPEN_LEVELS: usize = 250;

/// Pairs that nest deeper than there are types, and how many structs they are made of, which are the first types.
struct Path {
    table: String,
    structs: usize,
}

/// As many structs as there is room for with two interfaces and so many other types behind them. Each has an interface
/// and the struct below it in it, the lowest the second interface and every other the first. Structs that stand one
/// apart are compared down to the lowest two, where the interfaces are met. Their methods take the highest struct and
/// the one two below it: so the structs are walked down again, by pairs that stand two apart, and the last pair differs.
fn path(behind: usize) -> Path {
    let structs = bounds::TYPES - 6 - behind;
    let (first, second) = (structs, structs + 1);
    let mut table = "typetable\t1\n".to_owned();
    for n in 0..structs {
        let (beside, below) = match n {
            0 => (second, first),
            _ => (first, n - 1),
        };
        table += &format!("T\tstruct\nF\tY\t-\t{beside}\t0\nF\tX\t-\t{below}\t0\n");
    }
    for n in [0, 1] {
        table += &format!("T\tiface\nM\tM\t-\t{}\t0\n", structs + 4 + n);
    }
    for n in [0, 1] {
        table += &format!("T\ttuple\t{}\n", structs - 1 - 2 * n);
    }
    table += &funcs(structs + 2);
    Path { table, structs }
}

/// Two funcs, each with one of two tuples for its parameters; the first is the results of both.
fn funcs(tuple: usize) -> String {
    [0, 1]
        .map(|n| format!("T\tfunc\t0\t{}\t{tuple}\n", tuple + n))
        .concat()
}

/// The structs that a path begins with, if so many levels are nested already: the interfaces are met at the last level
/// that opens a pair of them.
fn start(nested: usize) -> [usize; 2] {
    [OPEN_LEVELS - nested, OPEN_LEVELS - 1 - nested]
}

fn long_path() -> Deep {
    let Path { table, .. } = path(0);
    let [x, y] = start(0);
    let name = "a chain of structs walked twice, I";
    deep(name, &table, &format!("I\t{x}\t{y}"), "no\n")
}

/// The same, where a method of a named type is compared with one of an interface: funcs and tuples are two levels more.
fn long_path_of_methods() -> Deep {
    let Path { mut table, structs } = path(6);
    let [tuple, func, named] = [6, 8, 10].map(|n| structs + n);
    for taken in start(2) {
        table += &format!("T\ttuple\t{taken}\n");
    }
    table += &funcs(tuple);
    table += &format!("T\tnamed\t0\nM\tM\t-\t{func}\t0\n");
    table += &format!("T\tiface\nM\tM\t-\t{}\t0\n", func + 1);
    // two fields of each struct and three methods stand before the one that is missing
    let due = format!("missing\t{}\t1\n", 2 * structs + 3);
    let question = format!("N\t{named}\t{}\t1", named + 1);
    deep(
        "a chain of structs walked twice, N",
        &table,
        &question,
        &due,
    )
}

/// 423 interfaces of two methods, whose funcs take one of 44 tuples of 225 interfaces: 150,290 pairs of interfaces lie
/// within one another, where x with y and y with x are two.
fn nested_pairs() -> Deep {
    const TUPLES: usize = 44;
    const ENTRIES: usize = 225;
    const METHODS: usize = 2;
    let ifaces = bounds::TYPES - 2 * TUPLES - 1;
    let seed = TUPLES * 1_000_003 + ENTRIES * 1_009 + METHODS;
    let mut numbers = Numbers(88_172_645_463_325_252 ^ seed as u64);
    let mut table = "typetable\t1\n".to_owned();
    for _ in 0..ifaces {
        table += "T\tiface\n";
        for name in ["A", "B"] {
            let func = ifaces + 1 + TUPLES + numbers.below(TUPLES);
            table += &format!("M\t{name}\t-\t{func}\t0\n");
        }
    }
    table += "T\ttuple\n";
    for _ in 0..TUPLES {
        table += "T\ttuple";
        for _ in 0..ENTRIES {
            table += &format!("\t{}", numbers.below(ifaces));
        }
        table += "\n";
    }
    for n in 0..TUPLES {
        table += &format!("T\tfunc\t0\t{}\t{ifaces}\n", ifaces + 1 + n);
    }
    deep(
        "150,290 nested pairs of interfaces, I",
        &table,
        "I\t0\t1",
        "yes\n",
    )
}

/// Rings of 52 and 53 interfaces, and as long a chain of pointers beside each of them as there are types for.
fn rings() -> Deep {
    const RINGS: [usize; 2] = [52, 53];
    const POINTERS: usize = (bounds::TYPES - 2 - 3 * (RINGS[0] + RINGS[1])) / 2;
    let mut table = "typetable\t1\nT\ttuple\nT\tbasic\t2\n".to_owned();
    let chain = |base: usize, first: usize| -> String {
        let below = |n: usize| if n == 0 { base } else { first + n - 1 };
        (0..POINTERS)
            .map(|n| format!("T\tpointer\t{}\n", below(n)))
            .collect()
    };
    table += &chain(1, 2);
    table += &chain(1, 2 + POINTERS);
    let mut first = 2 + 2 * POINTERS;
    let tops = [1 + POINTERS, 1 + 2 * POINTERS];
    let [x, y] = [0, 1].map(|n| {
        let (start, length, top) = (first, RINGS[n], tops[n]);
        for k in 0..length {
            let (at, next) = (start + 3 * k, start + 3 * ((k + 1) % length));
            table += &format!("T\tiface\nM\tM\t-\t{}\t0\n", at + 2);
            table += &format!("T\ttuple\t{next}\t{top}\nT\tfunc\t0\t{}\t0\n", at + 1);
        }
        first += 3 * length;
        start
    });
    let name = "rings of interfaces over chains of pointers, I";
    deep(name, &table, &format!("I\t{x}\t{y}"), "yes\n")
}

/// Two towers of structs, each with two fields of the one below.
fn towers(height: usize) -> [Deep; 2] {
    let mut table = "typetable\t1\nT\tbasic\t2\n".to_owned();
    for n in 0..2 * height {
        let below = if n % height == 0 { 0 } else { n };
        table += &format!("T\tstruct\nF\tA\t-\t{below}\t0\nF\tB\t-\t{below}\t0\n");
    }
    let case = |name: String, question: String| deep(&name, &table, &question, "yes\n");
    [
        case(
            format!("two towers of {height} structs, I"),
            format!("I\t{height}\t{}", 2 * height),
        ),
        case(
            format!("a tower of {height} structs, C"),
            format!("C\t{height}"),
        ),
    ]
}

/// Behind the first type, as many others as there may be.
const LAST: usize = bounds::TYPES - 1;

/// Structs, each embedded in the next and in one table twice in the last, so that the way to a field of the first has a
/// place for each.
fn chain() -> [Deep; 4] {
    let mut table = "typetable\t1\nT\tbasic\t2\nT\tstruct\nF\tX\t-\t0\t0\n".to_owned();
    for below in 1..LAST {
        table += &format!("T\tstruct\nF\tE\t-\t{below}\t1\n");
    }
    let entry = format!("entry\t0\t0{}\n", "\t0".repeat(LAST));
    let twice = format!("{table}F\tD\t-\t{}\t1\n", LAST - 1);
    let rest = "\t0".repeat(LAST - 1);
    let both = format!("ambiguous\t0{rest}\nand\t1{rest}\n");
    let case = |name: &str, table: &str, letter: &str, due: &str| {
        let question = format!("{letter}\t{LAST}");
        let question = question + if letter == "S" { "\t0\t-\tX" } else { "" };
        deep(&format!("{name}, {letter}"), table, &question, due)
    };
    [
        case(&format!("a way of {LAST} places"), &table, "S", &entry),
        case(&format!("two ways of {LAST} places"), &twice, "S", &both),
        case(&format!("{LAST} levels"), &table, "M", "set\t0\n"),
        case(&format!("{LAST} levels of structs"), &table, "C", "yes\n"),
    ]
}

/// Arrays, each of the one below.
fn arrays() -> Deep {
    let mut table = "typetable\t1\nT\tbasic\t2\n".to_owned();
    for below in 0..LAST {
        table += &format!("T\tarray\t1\t{below}\n");
    }
    let name = format!("{LAST} levels of arrays, C");
    deep(&name, &table, &format!("C\t{LAST}"), "yes\n")
}

impl Deep {
    /// The question twice as a text of questions, and one that is refused between.
    fn many(&self) -> Deep {
        let Deep {
            name,
            table,
            question,
            due,
        } = self;
        deep(
            &format!("{name}, in one call"),
            table,
            &format!("{question}\nX\n{question}\n"),
            &format!("{due}refused\t11\t0\n{due}"),
        )
    }

    /// The table tidied, in place of the question: as it is on a large stack.
    fn tidied(&self) -> Deep {
        let mut answers = Answers::new();
        let due = answers.tidy(self.table.as_bytes()).expect("it is tidied");
        let due = String::from_utf8(due.to_vec()).expect("text");
        let (about, _) = self.name.rsplit_once(", ").expect("a letter");
        deep(&format!("{about}, tidied"), &self.table, "", &due)
    }

    fn run(&self, ask: Ask) {
        let mut answer = vec![0; bounds::TEXT];
        let mut work = vec![0; work_words()];
        let (table, question) = (self.table.as_bytes(), self.question.as_bytes());
        let result = ask(table, question, &mut answer, &mut work);
        let length = result.unwrap_or_else(|refusal| panic!("{}: {refusal}", self.name));
        assert_eq!(&answer[..length], self.due.as_bytes(), "{}", self.name);
    }
}

/// The deep tables, each once, tidied.
fn all_tidied() -> Vec<Deep> {
    let mut all = all_deep();
    all.sort_by(|a, b| a.table.cmp(&b.table));
    all.dedup_by(|a, b| a.table == b.table);
    all.iter().map(Deep::tidied).collect()
}

/// The call that tidies, with a question that it does not look at.
fn tidies(table: &[u8], _: &[u8], output: &mut [u8], work: &mut [u32]) -> Result<usize, Refusal> {
    tidied(table, output, work)
}

#[test]
fn deep_calls_on_small_threads() {
    for bytes in [2 << 20, 1 << 20] {
        let tidied = all_tidied();
        let run = move || {
            for deep in all_deep() {
                deep.run(asked);
                deep.many().run(asked_all);
            }
            tidied.iter().for_each(|deep| deep.run(tidies));
        };
        let thread = thread::Builder::new().stack_size(bytes).spawn(run);
        let ended = thread.expect("a thread starts").join();
        ended.expect("every deep question is answered");
    }
}

extern "C" {
    fn pthread_attr_init(attr: *mut Attr) -> i32;
    fn pthread_attr_setstack(attr: *mut Attr, at: *mut c_void, bytes: usize) -> i32;
    fn pthread_create(
        thread: *mut usize,
        attr: *const Attr,
        run: extern "C" fn(*mut c_void) -> *mut c_void,
        argument: *mut c_void,
    ) -> i32;
    fn pthread_join(thread: usize, result: *mut *mut c_void) -> i32;
}

/// At least as large as `pthread_attr_t` of any Linux machine.
#[repr(C, align(16))]
struct Attr([u64; 16]);

/// A call in buffers that are kept.
type Kept = for<'a> fn(&'a mut Answers, &[u8], &[u8]) -> Result<&'a [u8], Refusal>;

/// A call on a thread of its own: the buffers, which are lent to it, and what comes back.
struct Call<'a> {
    ask: Kept,
    deep: &'a Deep,
    answers: Answers,
    answered: bool,
}

extern "C" fn call(argument: *mut c_void) -> *mut c_void {
    // SAFETY: `stack_of` hands over a call that lives until this thread has ended, and does not use it meanwhile.
    let call = unsafe { &mut *argument.cast::<Call>() };
    let (table, question) = (call.deep.table.as_bytes(), call.deep.question.as_bytes());
    let result = (call.ask)(&mut call.answers, table, question);
    call.answered = matches!(result, Ok(answer) if *answer == *call.deep.due.as_bytes());
    std::ptr::null_mut()
}

/// The bytes of stack that a call writes to, those of the thread's own start with them.
fn stack_of(ask: Kept, deep: &Deep) -> usize {
    const BYTES: usize = 64 << 20;
    let mut stack = vec![0u128; BYTES / 16];
    let mut lent = Call {
        ask,
        deep,
        answers: Answers::new(),
        answered: false,
    };
    let mut attr = Attr([0; 16]);
    let mut thread = 0;
    // SAFETY: the thread's stack and its argument outlive it, and are its own until it is joined.
    unsafe {
        assert_eq!(pthread_attr_init(&mut attr), 0);
        assert_eq!(
            pthread_attr_setstack(&mut attr, stack.as_mut_ptr().cast(), BYTES),
            0
        );
        let argument = (&raw mut lent).cast();
        assert_eq!(pthread_create(&mut thread, &attr, call, argument), 0);
        assert_eq!(pthread_join(thread, std::ptr::null_mut()), 0);
    }
    assert!(lent.answered, "{}", deep.name);
    let untouched = stack.iter().take_while(|&&word| word == 0).count();
    BYTES - 16 * untouched
}

/// Says and gives the bytes of stack that a question takes.
fn said_stack_of(ask: Kept, deep: &Deep) -> usize {
    let bytes = stack_of(ask, deep);
    say(&format!("{}: {bytes} bytes of stack", deep.name));
    bytes
}

#[test]
fn deep_calls_take_less_than_a_mebibyte_of_stack() {
    for deep in all_deep() {
        let one = said_stack_of(Answers::ask, &deep);
        let many = said_stack_of(Answers::ask_all, &deep.many());
        assert!(one.max(many) < 1 << 20, "{}", deep.name);
    }
    for deep in all_tidied() {
        let tidied = said_stack_of(|answers, table, _| answers.tidy(table), &deep);
        assert!(tidied < 1 << 20, "{}", deep.name);
    }
}

/// Rows for longer texts have frames of their own, and a call on a small table enters none of them. Which functions share
/// a frame is the compiler's choice, and no proof speaks of it.
#[test]
fn a_small_table_takes_little_stack() {
    let small = deep(
        "a small table, C",
        "typetable\t1\nT\tbasic\t2\n",
        "C\t0",
        "yes\n",
    );
    assert!(said_stack_of(Answers::ask, &small) < 100 << 10);
    assert!(said_stack_of(Answers::ask_all, &small.many()) < 1 << 20);
    let tidied = said_stack_of(|answers, table, _| answers.tidy(table), &small.tidied());
    assert!(tidied < 1 << 20);
}
