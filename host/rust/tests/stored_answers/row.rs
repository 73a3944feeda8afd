//! Rows of crates/replay/data: a name, inputs, `=` and answers, with a space between each two. Inputs and answers are numbers, and
//! texts in quotes, of which each byte is a number.

pub struct Row {
    pub kind: String,
    pub inputs: Vec<u32>,
    pub stored: Vec<u32>,
}

#[derive(PartialEq)]
enum Item<'a> {
    Word(&'a str),
    Text(String),
}

impl Row {
    /// None if the line is not of this form.
    pub fn parse(line: &str) -> Option<Row> {
        let items = items(line);
        let mut sides = items.split(|item| *item == Item::Word("="));
        let (left, right) = (sides.next()?, sides.next()?);
        let (Item::Word(kind), inputs) = left.split_first()? else {
            return None;
        };
        let row = Row {
            kind: kind.to_string(),
            inputs: numbers(inputs)?,
            stored: numbers(right)?,
        };
        sides.next().is_none().then_some(row)
    }
}

/// No text has a quote in it, so what is between two is a text.
fn items(line: &str) -> Vec<Item<'_>> {
    let parts = line.split('"').enumerate();
    let items = parts.flat_map(|(place, part)| match place % 2 {
        0 => part.split_whitespace().map(Item::Word).collect(),
        _ => vec![Item::Text(part.replace("\\n", "\n"))],
    });
    items.collect()
}

fn numbers(items: &[Item]) -> Option<Vec<u32>> {
    let of_item = |item: &Item| match item {
        Item::Word(word) => Some(vec![word.parse().ok()?]),
        Item::Text(text) => Some(text.bytes().map(u32::from).collect()),
    };
    let numbers: Option<Vec<Vec<u32>>> = items.iter().map(of_item).collect();
    Some(numbers?.concat())
}
