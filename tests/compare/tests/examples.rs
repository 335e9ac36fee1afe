//! The example programs, as the assembler makes them.

use compare::{compared, Call, Question, Tally};
use programs::Example;
use std::path::Path;

compared!(check_of_the_examples, has_check, checks);
compared!(instances_of_the_examples, has_instance, instances);
compared!(runs_of_the_examples, has_run, runs);
compared!(texts_of_instances, has_instance_text, instance_texts);
compared!(texts_of_runs, has_run_text, run_texts);

/// All examples.
fn examples() -> Result<Vec<Example>, String> {
    let folder = Path::new(env!("CARGO_MANIFEST_DIR")).join("../../examples");
    let examples = programs::examples(&folder)?;
    match examples.is_empty() {
        true => Err("there are no examples".into()),
        false => Ok(examples),
    }
}

/// How a question is compared: by itself, or with its texts.
type Asked = fn(&mut Tally, &Question) -> Result<(), String>;

/// Asks one call about every example.
fn ask(tally: &mut Tally, call: fn(&Example) -> Call<'_>, asked: Asked) -> Result<(), String> {
    for example in examples()? {
        let question = Question {
            program: &example.bytes,
            call: call(&example),
            limit: example.limit,
            length: example.output,
            text: None,
        };
        asked(tally, &question).map_err(|message| format!("{}: {message}", example.name))?;
    }
    Ok(())
}

/// An instance of the family of an example, or of its first one.
fn instance(example: &Example) -> Call<'_> {
    Call::Instance {
        family: example.family.unwrap_or(0),
        sizes: &example.sizes,
    }
}

/// Checks every example.
fn checks(tally: &mut Tally) -> Result<(), String> {
    ask(tally, |_| Call::Check, Tally::question)
}

/// Unrolls every example.
fn instances(tally: &mut Tally) -> Result<(), String> {
    ask(tally, instance, Tally::question)
}

/// Runs every example whole.
fn runs(tally: &mut Tally) -> Result<(), String> {
    ask(tally, |_| Call::Run, Tally::question)
}

/// Unrolls every example and prints it.
fn instance_texts(tally: &mut Tally) -> Result<(), String> {
    ask(tally, instance, Tally::texts)
}

/// Runs every example whole and prints it.
fn run_texts(tally: &mut Tally) -> Result<(), String> {
    ask(tally, |_| Call::Run, Tally::texts)
}
