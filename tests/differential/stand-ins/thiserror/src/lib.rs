//! The derive for errors: the text shown is the debug form. Errors are compared as values, never by their text.

use proc_macro::{TokenStream, TokenTree};

#[proc_macro_derive(Error, attributes(error, from))]
pub fn error(item: TokenStream) -> TokenStream {
    let mut words = item.into_iter().filter_map(|tree| match tree {
        TokenTree::Ident(word) => Some(word.to_string()),
        _ => None,
    });
    let name = words
        .find(|word| word == "enum" || word == "struct")
        .and_then(|_| words.next())
        .expect("an error is an enum or a struct");
    format!(
        "impl ::std::fmt::Display for {name} {{
            fn fmt(&self, out: &mut ::std::fmt::Formatter<'_>) -> ::std::fmt::Result {{
                ::std::fmt::Debug::fmt(self, out)
            }}
        }}
        impl ::std::error::Error for {name} {{}}"
    )
    .parse()
    .expect("two impls")
}
