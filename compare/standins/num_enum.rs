//! Stand-in for the crate `num_enum`: the two derives that gpt.rs and table.rs name. Which numbers there are is read off the enum itself.

extern crate proc_macro;
use proc_macro::{Delimiter, TokenStream, TokenTree};

struct Enum {
    repr: String,
    name: String,
    variants: Vec<(String, String)>,
}

/// Takes `#[repr(R)] enum N { V = literal, .. }` apart.
fn parse(input: TokenStream) -> Enum {
    let mut repr = String::new();
    let mut name = String::new();
    let mut variants = Vec::new();
    let mut tokens = input.into_iter().peekable();
    while let Some(token) = tokens.next() {
        match token {
            TokenTree::Group(g) if g.delimiter() == Delimiter::Bracket => {
                let mut inner = g.stream().into_iter();
                if let (Some(TokenTree::Ident(i)), Some(TokenTree::Group(arg))) =
                    (inner.next(), inner.next())
                {
                    if i.to_string() == "repr" {
                        repr = arg.stream().to_string();
                    }
                }
            }
            TokenTree::Ident(i) if i.to_string() == "enum" => {
                name = tokens.next().expect("a name").to_string();
            }
            TokenTree::Group(g) if g.delimiter() == Delimiter::Brace => {
                let mut last = String::new();
                let mut body = g.stream().into_iter();
                while let Some(t) = body.next() {
                    match t {
                        TokenTree::Ident(i) => last = i.to_string(),
                        TokenTree::Punct(p) if p.as_char() == '=' => {
                            let number = body.next().expect("a number").to_string();
                            variants.push((last.clone(), number));
                        }
                        _ => {}
                    }
                }
            }
            _ => {}
        }
    }
    Enum { repr, name, variants }
}

#[proc_macro_derive(TryFromPrimitive)]
pub fn try_from_primitive(input: TokenStream) -> TokenStream {
    let e = parse(input);
    let arms: String = e
        .variants
        .iter()
        .map(|(v, n)| format!("{n} => ::core::result::Result::Ok(Self::{v}),"))
        .collect();
    format!(
        "impl ::core::convert::TryFrom<{r}> for {e} {{
            type Error = {r};
            fn try_from(number: {r}) -> ::core::result::Result<Self, {r}> {{
                match number {{ {arms} _ => ::core::result::Result::Err(number) }}
            }}
        }}",
        r = e.repr,
        e = e.name
    )
    .parse()
    .unwrap()
}

#[proc_macro_derive(IntoPrimitive)]
pub fn into_primitive(input: TokenStream) -> TokenStream {
    let e = parse(input);
    format!(
        "impl ::core::convert::From<{e}> for {r} {{
            fn from(value: {e}) -> Self {{ value as Self }}
        }}",
        r = e.repr,
        e = e.name
    )
    .parse()
    .unwrap()
}
