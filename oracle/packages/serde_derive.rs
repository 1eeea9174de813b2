//! Stand-in, inert: `derive(Serialize, Deserialize)` gives an empty impl.
//! types.rs has to compile; nothing is ever encoded.

use proc_macro::{TokenStream, TokenTree};

/// The name behind `struct` or `enum`.
fn type_name(item: TokenStream) -> String {
    let mut tokens = item.into_iter();
    while let Some(token) = tokens.next() {
        if let TokenTree::Ident(word) = token
            && matches!(word.to_string().as_str(), "struct" | "enum")
        {
            return tokens.next().expect("a name").to_string();
        }
    }
    panic!("neither a struct nor an enum")
}

#[proc_macro_derive(Serialize, attributes(serde))]
pub fn serialize(item: TokenStream) -> TokenStream {
    let empty = format!("impl serde::Serialize for {} {{}}", type_name(item));
    empty.parse().unwrap()
}

#[proc_macro_derive(Deserialize, attributes(serde))]
pub fn deserialize(item: TokenStream) -> TokenStream {
    let empty = format!(
        "impl<'de> serde::Deserialize<'de> for {} {{}}",
        type_name(item)
    );
    empty.parse().unwrap()
}
