//! Rows of stored answers, to standard output.

use crate::numbers::{parse, words, Numbers, OnNumbers};
use std::collections::BTreeSet;
use std::io::{self, BufWriter, StdoutLock, Write};

/// Rows of a call below one heading. With an error it is a rule that the original does not have.
#[derive(Clone)]
pub struct Section<C> {
    pub call: C,
    pub about: String,
    pub error: Option<u32>,
    pub inputs: Vec<Numbers>,
}

pub fn section<C>(call: C, about: &str, inputs: Vec<Numbers>) -> Section<C> {
    Section {
        call,
        about: about.to_string(),
        error: None,
        inputs,
    }
}

pub fn own_rule<C>(call: C, error: u32, about: &str, inputs: Vec<Numbers>) -> Section<C> {
    Section {
        error: Some(error),
        ..section(call, about, inputs)
    }
}

pub struct RowWriter(BufWriter<StdoutLock<'static>>);

impl RowWriter {
    pub fn to_standard_output(head: &str) -> io::Result<RowWriter> {
        let mut out = BufWriter::new(io::stdout().lock());
        write!(out, "{head}")?;
        Ok(RowWriter(out))
    }

    pub fn heading(&mut self, text: &str) -> io::Result<()> {
        writeln!(self.0, "\n# {text}")
    }

    /// Of rows with an error that the original does not have.
    pub fn own_rule(&mut self, name: &str, error: u32, about: &str) -> io::Result<()> {
        self.heading(&format!(
            "{name}, a rule that the original does not have: error {error}, {about}"
        ))
    }

    pub fn row(&mut self, name: &str, input: &[u32], answer: &[u32]) -> io::Result<()> {
        self.line(&format!("{name}{} ={}", words(input), words(answer)))
    }

    pub fn line(&mut self, text: &str) -> io::Result<()> {
        writeln!(self.0, "{text}")
    }

    /// Each input once.
    pub fn sections<C: OnNumbers>(
        &mut self,
        sections: impl IntoIterator<Item = Section<C>>,
    ) -> io::Result<()> {
        let mut written = BTreeSet::new();
        for mut section in sections {
            let name = section.call.name();
            section
                .inputs
                .retain(|input| written.insert((name, input.clone())));
            self.section(&section)?;
        }
        Ok(())
    }

    fn section<C: OnNumbers>(&mut self, section: &Section<C>) -> io::Result<()> {
        let Section { call, about, .. } = section;
        let name = call.name();
        match section.error {
            Some(error) => self.own_rule(name, error, about),
            None => self.heading(&format!("{name}: {about}")),
        }?;
        for input in &section.inputs {
            let answer = match section.error {
                Some(error) => call.error(error, input),
                None => call.original(input).expect("an answer"),
            };
            self.row(name, input, &answer)?;
        }
        Ok(())
    }

    /// What is right, and a row with another answer than is due.
    pub fn wrong_on_purpose(
        &mut self,
        name: &str,
        [right, row]: [&str; 2],
        due: impl Fn(&[u32]) -> Numbers,
    ) -> io::Result<()> {
        let (question, answer) = row.split_once(" = ").expect("a row");
        let input = parse(question.strip_prefix(name).expect("the call's name"));
        let (answer, due) = (parse(answer), due(&input));
        assert!(
            answer.len() == due.len() && answer != due,
            "not wrong: {row}"
        );
        self.heading(&format!("wrong on purpose: {right}"))?;
        self.row(name, &input, &answer)
    }

    pub fn flush(&mut self) -> io::Result<()> {
        self.0.flush()
    }
}
