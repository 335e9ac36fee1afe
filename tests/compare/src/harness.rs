//! Comparing answers, and counting what was compared.

use crate::ask::{ask, untouched, Answer, Call, Question, Who};
use crate::promises::promises;
use crate::recorded::showings::RecordedShowing;
use crate::recorded::Recorded;
use crate::showing;
use generate::forms::Showing;
use generate::Case;

/// Text bytes that are lent beyond what a text needs.
const TO_SPARE: usize = 1_000;

/// How many answers were compared with the library, and how many stood alone.
#[derive(Clone, Copy, Debug, Default, PartialEq, Eq)]
pub struct Tally {
    pub compared: u64,
    pub alone: u64,
}

impl Tally {
    /// Counts one answer.
    fn count(&mut self, compared: bool) {
        match compared {
            true => self.compared += 1,
            false => self.alone += 1,
        }
    }

    /// Compares a question and counts it.
    pub fn question(&mut self, question: &Question) -> Result<(), String> {
        self.count(compare(question)?);
        Ok(())
    }

    /// Compares the calls that print what a question asks to list, with no room
    /// for text, one byte too few, just enough and more. Each has to answer as
    /// the question does, but 30 where the text does not fit.
    pub fn texts(&mut self, question: &Question) -> Result<(), String> {
        let listed = reference_answer(question)?;
        let whole = whole_text(question);
        let most = whole.len() + TO_SPARE;
        let mut rooms = vec![0, whole.len().saturating_sub(1), whole.len(), most];
        rooms.dedup();
        for room in rooms {
            let text = Some(room);
            let printing = Question { text, ..*question };
            self.question(&printing)?;
            let answer = reference_answer(&printing)?;
            if answer != printed(&listed, &whole, room) {
                let told = "the text does not go with the list";
                return Err(format!("{told}: {:?}", answer.outcome));
            }
        }
        Ok(())
    }

    /// Compares all calls on one generated case.
    pub fn case(&mut self, case: &Case) -> Result<(), String> {
        let sizes = &case.sizes;
        let family = case.family;
        let question = |call| Question {
            program: &case.program,
            call,
            limit: case.limit,
            length: case.output,
            text: None,
        };
        self.question(&question(Call::Check))?;
        for call in [Call::Instance { family, sizes }, Call::Run] {
            self.question(&question(call))?;
            self.texts(&question(call))?;
        }
        Ok(())
    }

    /// Compares the answers about a showing and counts it.
    pub fn showing(&mut self, asked: &Showing) -> Result<(), String> {
        self.count(showing::compare(asked)?);
        Ok(())
    }

    /// Compares the answers to all recorded questions.
    pub fn recorded(&mut self, rows: &[Recorded]) -> Result<(), String> {
        for row in rows {
            row.hold(Who::Reference)?;
            self.count(row.hold(Who::Library)?);
        }
        Ok(())
    }

    /// Compares the answers to all recorded showings.
    pub fn recorded_showings(&mut self, rows: &[RecordedShowing]) -> Result<(), String> {
        for row in rows {
            row.hold(Who::Reference)?;
            self.count(row.hold(Who::Library)?);
        }
        Ok(())
    }

    /// One line that says how much was compared.
    pub fn line(&self) -> String {
        format!(
            "{} answers compared with the library, {} of the reference alone",
            self.compared, self.alone
        )
    }
}

/// What a test compares, counting as it goes.
pub type Work = fn(&mut Tally) -> Result<(), String>;

/// Does a test's work and says what it counted; it fails where an answer was
/// not compared with the library's.
pub fn hold(work: Work) {
    let mut tally = Tally::default();
    if let Err(message) = work(&mut tally) {
        panic!("{message}");
    }
    println!("{}", tally.line());
    assert_eq!(tally.alone, 0, "all answers are compared");
    assert_ne!(tally.compared, 0, "some answers are compared");
}

/// A test that compares a call of the library; it is ignored where the archive
/// lacks the call, and fails if it is run nevertheless.
#[macro_export]
macro_rules! compared {
    ($name:ident, $has:ident, $work:ident) => {
        mod $name {
            #[test]
            #[cfg_attr(
                not($has),
                ignore = "no archive with this call; run `bash tools/build.sh metaqasm` first"
            )]
            fn compared_with_the_library() {
                $crate::harness::hold(super::$work);
            }
        }
    };
}

/// The stack in bytes on which the deepest programs are asked about: more than
/// either side needs.
const DEEP_STACK: usize = 64 << 20;

/// Does work on a stack that is large enough for the deepest programs.
pub fn on_a_deep_stack(work: Work, tally: &mut Tally) -> Result<(), String> {
    let mut counted = *tally;
    let thread = std::thread::Builder::new()
        .stack_size(DEEP_STACK)
        .spawn(move || work(&mut counted).map(|()| counted))
        .map_err(|error| format!("no thread: {error}"))?;
    *tally = thread
        .join()
        .map_err(|_| "the thread failed".to_string())??;
    Ok(())
}

/// The reference's answer, which has every call.
pub fn reference_answer(question: &Question) -> Result<Answer, String> {
    ask(Who::Reference, question).ok_or("the reference gave no answer".into())
}

/// The text of what a question asks to list; empty where the list is not complete.
pub fn whole_text(question: &Question) -> String {
    let mut output = vec![0; question.length];
    let (program, limit) = (question.program, question.limit);
    let (_, text) = match question.call {
        Call::Check => return String::new(),
        Call::Instance { family, sizes } => {
            reference::instance_qasm(program, family, sizes, limit, &mut output)
        }
        Call::Run => reference::run_qasm(program, limit, &mut output),
    };
    text
}

/// The answer that is due where a list is printed into so much room.
fn printed(listed: &Answer, whole: &str, room: usize) -> Answer {
    let mut due = listed.clone();
    due.text = untouched(room);
    match due.text.get_mut(..whole.len()) {
        Some(written) => {
            written.copy_from_slice(whole.as_bytes());
            due.outcome.length = whole.len() as u64;
        }
        None => due.outcome.number = 30,
    }
    due
}

/// Compares both answers to a question; no where the library lacks the call.
pub fn compare(question: &Question) -> Result<bool, String> {
    let told = |message: String| format!("{message}\n{}", describe(question));
    let expected = reference_answer(question).map_err(told)?;
    promises(question, &expected).map_err(told)?;
    match ask(Who::Library, question) {
        None => Ok(false),
        Some(answer) if answer == expected => Ok(true),
        Some(answer) => Err(told(difference(&expected, &answer))),
    }
}

/// What two answers differ in.
fn difference(expected: &Answer, answer: &Answer) -> String {
    if answer.outcome != expected.outcome {
        return format!(
            "the reference answers {:?}, the library {:?}",
            expected.outcome, answer.outcome
        );
    }
    for (name, one, two) in [
        ("outputs", &expected.output, &answer.output),
        ("texts", &expected.text, &answer.text),
    ] {
        if let Some(place) = one.iter().zip(two).position(|(one, two)| one != two) {
            return format!("the {name} differ from byte {place} on");
        }
    }
    "the library wrote outside its output or text".into()
}

/// A question in a form with which it can be asked again.
fn describe(question: &Question) -> String {
    let bytes: Vec<String> = question
        .program
        .iter()
        .map(|b| format!("{b:02x}"))
        .collect();
    format!(
        "call: {:?}\nlimit: {}\noutput bytes: {}\ntext bytes: {:?}\nprogram: {}",
        question.call,
        question.limit,
        question.length,
        question.text,
        bytes.join(" ")
    )
}
