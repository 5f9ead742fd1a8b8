//! `#[derive(Error)]` with no dependency: Display is Debug (no text is compared), `#[from]` makes a From.

extern crate proc_macro;

use proc_macro::{Delimiter, TokenStream, TokenTree};

#[proc_macro_derive(Error, attributes(error, from))]
pub fn derive_error(item: TokenStream) -> TokenStream {
    let tokens: Vec<TokenTree> = item.into_iter().collect();
    let kind = tokens
        .iter()
        .position(|t| matches!(t.to_string().as_str(), "struct" | "enum"))
        .expect("a struct or an enum");
    let name = tokens[kind + 1].to_string();
    let mut code = format!(
        "impl ::core::fmt::Display for {name} {{
             fn fmt(&self, f: &mut ::core::fmt::Formatter<'_>) -> ::core::fmt::Result {{
                 ::core::fmt::Debug::fmt(self, f)
             }}
         }}
         impl ::std::error::Error for {name} {{}}"
    );
    if tokens[kind].to_string() == "enum" {
        let body = tokens
            .iter()
            .find_map(|t| group(t, Delimiter::Brace))
            .expect("a body");
        for (variant, kind) in conversions(body) {
            code += &format!(
                "impl ::core::convert::From<{kind}> for {name} {{
                     fn from(source: {kind}) -> Self {{ Self::{variant}(source) }}
                 }}"
            );
        }
    }
    code.parse().expect("Rust")
}

fn group(token: &TokenTree, delimiter: Delimiter) -> Option<TokenStream> {
    match token {
        TokenTree::Group(g) if g.delimiter() == delimiter => Some(g.stream()),
        _ => None,
    }
}

/// `Variant(#[from] Type)`: the variant and the type.
fn conversions(body: TokenStream) -> Vec<(String, String)> {
    let tokens: Vec<TokenTree> = body.into_iter().collect();
    let mut found = Vec::new();
    for pair in tokens.windows(2) {
        let (TokenTree::Ident(variant), Some(fields)) =
            (&pair[0], group(&pair[1], Delimiter::Parenthesis))
        else {
            continue;
        };
        let fields: Vec<TokenTree> = fields.into_iter().collect();
        let from = fields
            .get(1)
            .and_then(|t| group(t, Delimiter::Bracket))
            .map(|t| t.to_string());
        if from.as_deref() == Some("from") {
            let kind: TokenStream = fields[2..].iter().cloned().collect();
            found.push((variant.to_string(), kind.to_string()));
        }
    }
    found
}
