//! Calls of the library on random and damaged tables, each from a seed alone. Each is held against what every call
//! promises of the number and the buffers, against the refusals that the papers' words give, and, where an answer is
//! due, against goscript. Its question is asked once more with others in one call, which is held against what each of
//! them gets alone, and its table is tidied.

use crate::agreement::{agrees_with, is_ambiguous, Agreed};
use crate::bounds;
use crate::damage::{self, damage, disorder, misdirect};
use crate::departures::{self, Departure};
use crate::engine::{self, Engine};
use crate::joined::{joined, lines};
use crate::prng::Prng;
use crate::random::{self, Shape};
use crate::table::Table;
use crate::{lent, many, refusals, tidied, tidy};
use yifgrun::{each_answer, work_words, Answers};

/// What a call is asked and lent.
pub struct Call {
    pub table: Vec<u8>,
    pub question: Vec<u8>,
    /// A text with the question and others, for one call.
    pub questions: Vec<u8>,
    /// The bytes of the answer buffer, and the words of the work area.
    pub room: usize,
    pub words: usize,
}

impl Call {
    /// The call that a seed and a number stand for.
    pub fn new(seed: u64, number: u64) -> Call {
        let mut prng = Prng::new(seed ^ number.wrapping_mul(0xd134_2543_de82_ef95));
        let (table, question, whole) = asked(&mut prng);
        let room = match prng.below(8) {
            0 => prng.below(41),
            1 => bounds::ANSWER,
            _ => prng.below(1_000),
        };
        let words = match prng.below(20) {
            0 => prng.below(work_words()),
            1 => work_words() + prng.below(1_000),
            _ => work_words(),
        };
        // drawn last, so that a seed and a number stand for the call that they always stood for
        let questions = questions(&mut prng, &question, whole.as_ref());
        Call {
            table,
            question,
            questions,
            room,
            words,
        }
    }
}

/// A table text and a question on it, either damaged or not, and the table that they were made from, if there is one.
fn asked(prng: &mut Prng) -> (Vec<u8>, Vec<u8>, Option<Table>) {
    if prng.chance(10) {
        return (damage::soup(prng), damage::question(prng), None);
    }
    let shape = match prng.below(1_000) {
        0 => Shape::largest(),
        1..=5 => Shape::middle(),
        6..=100 => Shape::small(),
        _ => Shape::tiny(),
    };
    let table = random::table(prng, &shape);
    let question = question(prng, &table);
    (text(prng, table.clone()), question, Some(table))
}

/// A question and up to four others, in any order, a line each; the last now and then without its newline.
fn questions(prng: &mut Prng, own: &[u8], table: Option<&Table>) -> Vec<u8> {
    let other = |prng: &mut Prng| match table {
        Some(table) => question(prng, table),
        None => damage::question(prng),
    };
    let count = prng.below(5);
    let mut lines: Vec<Vec<u8>> = (0..count).map(|_| other(prng)).collect();
    lines.insert(prng.below(count + 1), own.to_vec());
    if prng.chance(50) {
        lines.push(Vec::new());
    }
    lines.join(&b'\n')
}

/// The text of a table: as it is, with a line changed, or damaged; each of these now and then with its packages out of order.
fn text(prng: &mut Prng, mut table: Table) -> Vec<u8> {
    let times = 1 + prng.below(2);
    let what = prng.below(10);
    if (4..7).contains(&what) {
        (0..times).for_each(|_| misdirect(prng, &mut table));
    }
    let mut text = table.to_string().into_bytes();
    if what >= 7 {
        (0..times).for_each(|_| damage(prng, &mut text));
    }
    if prng.chance(8) {
        disorder(prng, &mut text);
    }
    text
}

/// A question on a table, or on none.
fn question(prng: &mut Prng, table: &Table) -> Vec<u8> {
    let any = |prng: &mut Prng| prng.below(table.types.len());
    let mut question = match prng.below(20) {
        0 => damage::question(prng),
        1 => b"V".to_vec(),
        2 => format!("N\t{}\t{}\t0", any(prng), any(prng)).into_bytes(),
        _ => random::questions(prng, table, 1).concat().into_bytes(),
    };
    if prng.chance(7) {
        damage(prng, &mut question);
    }
    question
}

/// What a call gives: an answer, or a refusal's number and line.
type Outcome = Result<String, (u8, usize)>;

/// The answer that goscript's stands for, and whether goscript's departs from it.
type Due = (String, Option<Departure>);

/// How many calls gave what.
#[derive(Default)]
pub struct Counts {
    pub answered: u64,
    /// Answers, and refusals 13, that were held against goscript's answer, or the counts for V.
    pub agreed: Agreed,
    /// By the number of the refusal; none has the number 0.
    pub refused: [u64; 15],
    pub many: Many,
    pub tidied: Tidied,
}

/// How many tables were tidied.
#[derive(Default)]
pub struct Tidied {
    pub tables: u64,
    /// Of these, such as have fewer types behind.
    pub smaller: u64,
    /// Those that were refused by the work area or by the table.
    pub refused: u64,
}

/// How many calls for many questions gave what.
#[derive(Default)]
pub struct Many {
    /// Calls that were answered, and those that were refused by the work area or by the table.
    pub answered: u64,
    pub refused: u64,
    /// The questions of those answered, and how many of these were refused.
    pub questions: u64,
    pub refused_questions: u64,
}

pub struct Hammer {
    goscript: Option<Box<dyn Engine>>,
    pub counts: Counts,
}

impl Hammer {
    pub fn new() -> Hammer {
        Hammer {
            goscript: engine::goscript(),
            counts: Counts::default(),
        }
    }

    /// Makes a call and checks it; panics where something does not hold.
    pub fn strike(&mut self, call: &Call) {
        let (mut answer, mut work) = (vec![0; call.room], vec![0; call.words]);
        let result = lent::asked(&call.table, &call.question, &mut answer, &mut work);
        let given: Outcome = match result {
            Ok(length) => Ok(String::from_utf8_lossy(&answer[..length]).into_owned()),
            Err(refusal) => Err((refusal.number(), refusal.line.into())),
        };
        match &given {
            Ok(_) => self.counts.answered += 1,
            Err((number, _)) => self.counts.refused[usize::from(*number)] += 1,
        }
        match self.due(call) {
            Ok(None) => assert!(matches!(given, Ok(_) | Err((13, 0))), "{given:?}"),
            Ok(Some(theirs)) => {
                let answer = self.whole(call, theirs);
                let fits = answer.len() <= call.room;
                let due = if fits { Ok(answer) } else { Err((13, 0)) };
                assert_eq!(given, due, "the second is due");
            }
            Err(refused) => assert_eq!(given, Err(refused), "the second is due"),
        }
        self.strike_all(call);
        self.strike_tidy(call);
    }

    /// Tidies the table and checks it against the refusal that is due, or what the answers to I lead to.
    fn strike_tidy(&mut self, call: &Call) {
        let counts = &mut self.counts.tidied;
        let due = match (call.words, refusals::table(&call.table)) {
            (words, _) if words < work_words() => Err((1, 0)),
            (_, Err(refused)) => Err((refused.number, refused.line as u16)),
            (_, Ok(table)) => {
                let due = tidied::Due::of(&table.to_string());
                let last = due.numbers.iter().max().map_or(0, |last| last + 1);
                counts.smaller += u64::from(last < due.numbers.len());
                Ok(due.text.into_bytes())
            }
        };
        match due {
            Ok(_) => counts.tables += 1,
            Err(_) => counts.refused += 1,
        }
        if let Err(difference) = tidy::hold(&call.table, call.room % 20, call.words, &due) {
            panic!("{difference}");
        }
    }

    /// Makes one call for all questions and checks it against what each gets alone.
    fn strike_all(&mut self, call: &Call) {
        let asked = (&*call.table, &*call.questions);
        let due = match call.words {
            words if words < work_words() => Err((1, 0)),
            _ => joined(asked.0, asked.1).map_err(|refusal| (refusal.number(), refusal.line)),
        };
        if let Err(difference) = many::hold(asked, call.room % 20, call.words, &due) {
            panic!("{difference}");
        }
        let counts = &mut self.counts.many;
        match due {
            Err(_) => counts.refused += 1,
            Ok(answers) => {
                counts.answered += 1;
                counts.questions += lines(&call.questions).count() as u64;
                let refused = each_answer(&answers).filter(Result::is_err);
                counts.refused_questions += refused.count() as u64;
            }
        }
    }

    /// The answer that is due, in a buffer with room for it, where goscript's stands for this one, and counts how the two
    /// agree. Of an ambiguous name goscript shows one way, so that the two that are due are the library's own.
    fn whole(&mut self, call: &Call, (theirs, departs): Due) -> String {
        let whole = if is_ambiguous(&theirs) {
            let mut answers = Answers::new();
            let answer = answers.ask(&call.table, &call.question);
            let answer = answer.unwrap_or_else(|refusal| panic!("{refusal}, not {theirs}"));
            String::from_utf8(answer.to_vec()).expect("an answer is text")
        } else {
            theirs.clone()
        };
        let how = agrees_with((&theirs, departs), &whole);
        let how = how.unwrap_or_else(|| panic!("goscript: {theirs:?}, the library: {whole:?}"));
        self.counts.agreed.count(how);
        whole
    }

    /// What goscript's answer stands for, or the refusal that is due; no answer if there is nothing to compare with.
    fn due(&mut self, call: &Call) -> Result<Option<Due>, (u8, usize)> {
        if call.words < work_words() {
            return Err((1, 0));
        }
        let refused = |refused: refusals::Refused| (refused.number, refused.line);
        let table = refusals::table(&call.table).map_err(refused)?;
        refusals::question(&table, &call.question).map_err(refused)?;
        Ok(self.answer(call, &table))
    }

    /// What `typeask` prints for the call's table and question, known without the library; nothing if that is not
    /// known, as where goscript shows one way of two.
    pub fn printed(&mut self, call: &Call) -> Option<String> {
        let known = |answer: &String| answer.len() <= bounds::ANSWER && !is_ambiguous(answer);
        Some(match self.due(call) {
            Ok(due) => due.map(|(answer, _)| answer).filter(known)?,
            Err((number, line)) => format!("refused\t{number}\t{line}\n"),
        })
    }

    fn answer(&mut self, call: &Call, table: &Table) -> Option<Due> {
        if call.question == b"V" {
            let (p, t, m) = (&table.packages, &table.types, &table.members);
            let counts = format!("ok\t{}\t{}\t{}\n", p.len(), t.len(), m.len());
            return Some((counts, None));
        }
        let goscript = self.goscript.as_mut()?.as_mut();
        let text = |bytes| str::from_utf8(bytes).expect("what loads is text");
        goscript.load(text(&call.table)).expect("it loads");
        let question = text(&call.question);
        let answer = goscript.ask(question);
        let answer = answer.expect("the question has the right form");
        Some(departures::due(goscript, table, question, answer))
    }
}

impl Default for Hammer {
    fn default() -> Hammer {
        Hammer::new()
    }
}
