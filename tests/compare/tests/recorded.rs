//! Recorded answers, worked out by hand, held against both.

use compare::recorded::{recorded, Recorded};
use compare::{compared, library, Call, Question, Tally, Who};

compared!(texts_of_recorded_instances, has_instance_text, instances);
compared!(texts_of_recorded_runs, has_run_text, runs);

/// Holds someone to rows, and says how many it answered.
fn hold(who: Who, rows: &[Recorded]) -> usize {
    let mut held = 0;
    let mut wrong = Vec::new();
    for row in rows {
        match row.hold(who) {
            Ok(answered) => held += usize::from(answered),
            Err(message) => wrong.push(message),
        }
    }
    assert!(wrong.is_empty(), "{}", wrong.join("\n"));
    held
}

/// The rows about calls that print, or about the others.
fn rows(prints: bool) -> Vec<Recorded> {
    let mut rows = recorded();
    rows.retain(|row| row.prints() == prints);
    rows
}

#[test]
fn the_reference_gives_every_recorded_answer() {
    assert_eq!(hold(Who::Reference, &recorded()), recorded().len());
}

#[test]
fn the_recorded_answers_have_every_number() {
    let [listed, printed] = [rows(false), rows(true)];
    for number in (0..=13).chain(20..=27).chain(31..=35) {
        assert!(listed.iter().any(|row| row.number() == number), "{number}");
        assert!(printed.iter().any(|row| row.number() == number), "{number}");
    }
    assert!(printed.iter().any(|row| row.number() == 30));
}

#[test]
#[cfg_attr(
    not(all(has_check, has_instance, has_run)),
    ignore = "no archive with all calls; run `bash tools/build.sh metaqasm` first"
)]
fn the_library_gives_every_recorded_answer() {
    println!("{}", library::status());
    let rows = rows(false);
    assert_eq!(hold(Who::Library, &rows), rows.len());
}

#[test]
#[cfg_attr(
    not(all(has_instance_text, has_run_text)),
    ignore = "no archive with all calls; run `bash tools/build.sh metaqasm` first"
)]
fn the_library_prints_every_recorded_text() {
    let rows = rows(true);
    assert_eq!(hold(Who::Library, &rows), rows.len());
}

/// Compares the texts of questions made from the recorded ones.
fn texts(
    tally: &mut Tally,
    made: impl for<'a> Fn(&Question<'a>) -> Option<Question<'a>>,
) -> Result<(), String> {
    for row in recorded() {
        if let Some(question) = made(&row.question()) {
            let compared = tally.texts(&question);
            compared.map_err(|message| format!("{}: {message}", row.name))?;
        }
    }
    Ok(())
}

/// Prints the list of every recorded instance.
fn instances(tally: &mut Tally) -> Result<(), String> {
    texts(tally, |question| match question.call {
        Call::Instance { .. } => Some(Question {
            text: None,
            ..*question
        }),
        _ => None,
    })
}

/// Prints the whole run of every recorded program.
fn runs(tally: &mut Tally) -> Result<(), String> {
    texts(tally, |question| {
        Some(Question {
            call: Call::Run,
            text: None,
            ..*question
        })
    })
}
