//! A stand-in for thiserror: `derive(Error)` gives `Display` and `Error` to an enum whose variants have no field or one, each
//! with its text in `#[error("..")]`.

use proc_macro::{Delimiter, TokenStream, TokenTree};

#[proc_macro_derive(Error, attributes(error))]
pub fn derive_error(item: TokenStream) -> TokenStream {
    let mut tokens = item.into_iter();
    tokens.find(|token| token.to_string() == "enum");
    let name = tokens.next().expect("the enum's name");
    let Some(TokenTree::Group(body)) = tokens.next() else {
        panic!("expected the enum's variants");
    };
    let arms = arms(body.stream());
    let code = format!(
        "impl std::fmt::Display for {name} {{
            fn fmt(&self, f: &mut std::fmt::Formatter<'_>) -> std::fmt::Result {{
                match self {{ {arms} }}
            }}
        }}
        impl std::error::Error for {name} {{}}"
    );
    code.parse().expect("Rust code")
}

/// The arms of a match that writes each variant's text.
fn arms(body: TokenStream) -> String {
    let (mut text, mut variant, mut arms) = (String::new(), String::new(), String::new());
    for token in body.into_iter().chain(",".parse::<TokenStream>().unwrap()) {
        match token {
            TokenTree::Group(group) if group.delimiter() == Delimiter::Bracket => {
                text = error_text(group.stream()).unwrap_or(text);
            }
            TokenTree::Group(_) => {
                arms += &format!("Self::{variant}(field) => write!(f, {text}, field),");
                variant.clear();
            }
            TokenTree::Ident(name) => variant = name.to_string(),
            TokenTree::Punct(mark) if mark.as_char() == ',' && !variant.is_empty() => {
                arms += &format!("Self::{variant} => write!(f, {text}),");
                variant.clear();
            }
            _ => {}
        }
    }
    arms
}

/// The text in `error("..")`, or none for another attribute.
fn error_text(attribute: TokenStream) -> Option<String> {
    let mut tokens = attribute.into_iter();
    let name = tokens.next()?.to_string();
    match tokens.next()? {
        TokenTree::Group(group) if name == "error" => Some(group.stream().to_string()),
        _ => None,
    }
}
