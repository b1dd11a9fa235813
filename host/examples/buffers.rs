//! The archive's two calls on buffers that the caller lends: nothing is allocated, and nothing is kept.

use yifgrun::{ask, ask_all, work_words, Refusal};

const TABLE: &[u8] = b"typetable\t1\nT\tbasic\t26\nT\tbasic\t8\nT\tslice\t0\n";

fn main() -> Result<(), Refusal> {
    println!("a call needs {} words of work area", work_words());
    let mut work = vec![0; work_words()];
    let mut answer = [0; 64];

    let length = ask(TABLE, b"I\t0\t1", &mut answer, &mut work)?;
    print!("{}", String::from_utf8_lossy(&answer[..length]));

    let questions = b"C\t0\nC\t2\nC\t3\nV\n";
    let length = ask_all(TABLE, questions, &mut answer, &mut work)?;
    print!("{}", String::from_utf8_lossy(&answer[..length]));

    let refusal = ask_all(TABLE, questions, &mut answer[..8], &mut work).unwrap_err();
    println!("{refusal}");
    Ok(())
}
