//! Texts that are not of the form [sheet-input], by what is wrong with them. The bytes of a text of the form that are no digits are
//! always the same, so a text with one more of them, one less or another is none.

use std::ops::Range;

/// An example, one of nine digits in each number, and one with each of the errors that are checked later.
const FORMS: [&str; 3] = [
    "market=4\nyear=2022\nmonth=12\n",
    "market=000000003\nyear=000002025\nmonth=000000005\n",
    "market=5\nyear=2031\nmonth=13\n",
];
const LINES: [&str; 3] = ["market=4\n", "year=2022\n", "month=12\n"];

type Text = Vec<u8>;

pub fn kinds() -> Vec<(&'static str, Vec<Text>)> {
    vec![
        ("a byte more, which is no digit", of_each_form(more)),
        ("another byte in the place of one", of_each_form(exchanged)),
        ("a byte less, which is no digit", of_each_form(less)),
        ("a text cut short at either end", of_each_form(cut)),
        ("a digit outside the numbers", of_each_form(stray_digits)),
        ("no digit, or more than nine", wrong_numbers()),
        ("other lines than the three", wrong_lines()),
        ("more bytes after the three lines", of_each_form(longer)),
    ]
}

fn of_each_form(texts: fn(&[u8]) -> Vec<Text>) -> Vec<Text> {
    let forms = FORMS.iter();
    forms.flat_map(|form| texts(form.as_bytes())).collect()
}

/// The text with these bytes in the place of others.
fn splice(text: &[u8], place: Range<usize>, bytes: &[u8]) -> Text {
    [&text[..place.start], bytes, &text[place.end..]].concat()
}

fn more(text: &[u8]) -> Vec<Text> {
    let at = |place| {
        (0..=255)
            .filter(|byte: &u8| !byte.is_ascii_digit())
            .map(move |byte| splice(text, place..place, &[byte]))
    };
    (0..=text.len()).flat_map(at).collect()
}

/// But for a digit in the place of a digit.
fn exchanged(text: &[u8]) -> Vec<Text> {
    let at = |place: usize| {
        let old = text[place];
        (0..=255)
            .filter(move |new: &u8| *new != old && !(new.is_ascii_digit() && old.is_ascii_digit()))
            .map(move |new| splice(text, place..place + 1, &[new]))
    };
    (0..text.len()).flat_map(at).collect()
}

fn less(text: &[u8]) -> Vec<Text> {
    (0..text.len())
        .filter(|&place| !text[place].is_ascii_digit())
        .map(|place| splice(text, place..place + 1, &[]))
        .collect()
}

fn cut(text: &[u8]) -> Vec<Text> {
    (0..text.len())
        .flat_map(|place| [text[..place].to_vec(), text[place + 1..].to_vec()])
        .collect()
}

/// In a name, before it, or after the last line.
fn stray_digits(text: &[u8]) -> Vec<Text> {
    let is_outside = |&place: &usize| match text.get(place) {
        Some(byte) => *byte == b'=' || byte.is_ascii_alphabetic(),
        None => true,
    };
    let at = |place| (b'0'..=b'9').map(move |digit| splice(text, place..place, &[digit]));
    (0..=text.len()).filter(is_outside).flat_map(at).collect()
}

/// Those that are too long are the right number to a reader that keeps the low bits, or passes over leading zeros.
fn wrong_numbers() -> Vec<Text> {
    let right: [u128; 3] = [4, 2022, 12];
    let wrong = |place: usize| {
        let number = right[place];
        let kept = [1 << 32, 1 << 64, 10_u128.pow(9), 10_u128.pow(20)].map(|more| more + number);
        let padded = (10..=20).map(move |digits| format!("{number:0digits$}"));
        let wrong = kept.map(|number| number.to_string()).into_iter();
        wrong.chain(padded).chain([String::new()])
    };
    let text = |place: usize, wrong: String| {
        let mut numbers = right.map(|number| number.to_string());
        numbers[place] = wrong;
        let [market, year, month] = numbers;
        format!("market={market}\nyear={year}\nmonth={month}\n").into_bytes()
    };
    (0..3)
        .flat_map(|place| wrong(place).map(move |wrong| text(place, wrong)))
        .collect()
}

/// None to four of them in every order but the right one.
fn wrong_lines() -> Vec<Text> {
    let mut texts = vec![String::new()];
    let mut all = texts.clone();
    for _ in 0..4 {
        texts = texts
            .iter()
            .flat_map(|text| LINES.map(|line| format!("{text}{line}")))
            .collect();
        all.extend(texts.clone());
    }
    all.retain(|text| *text != LINES.concat());
    all.into_iter().map(String::into_bytes).collect()
}

/// By line feeds or by the text again; also up to lengths whose low byte, or low half, is the text's own length.
fn longer(text: &[u8]) -> Vec<Text> {
    let own = text.len();
    let lengths = [own + 1, 64, 256, 256 + own, 65536, 65536 + own];
    let fills: [&[u8]; 2] = [b"\n", text];
    let fill = |bytes: &[u8], length| -> Text {
        let filling = bytes.iter().cycle();
        text.iter().chain(filling).take(length).copied().collect()
    };
    lengths
        .iter()
        .flat_map(|&length| fills.map(|bytes| fill(bytes, length)))
        .collect()
}
