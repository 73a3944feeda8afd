//! The texts of an enum as the original has it.

#[derive(thiserror::Error, Debug)]
enum Problem {
    /// With a field
    #[error("the date {0} is out of range (2020-2030).")]
    Date(u32),

    /// Without
    #[error("nothing found")]
    Nothing,

    #[error("wrong: {0}")]
    Wrong(String),
}

#[test]
fn texts() {
    let date: Box<dyn std::error::Error> = Box::new(Problem::Date(7));
    assert_eq!(date.to_string(), "the date 7 is out of range (2020-2030).");
    assert_eq!(Problem::Nothing.to_string(), "nothing found");
    assert_eq!(Problem::Wrong("x".into()).to_string(), "wrong: x");
}
