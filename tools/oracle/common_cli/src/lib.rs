//! Stand-in for the two attribute macros of lvn/src/main.rs.

use proc_macro::TokenStream;

/// The struct as it is, and the type of the pass's arguments, here empty.
#[proc_macro_attribute]
pub fn cli_args(_: TokenStream, item: TokenStream) -> TokenStream {
    after("pub struct CLIArgs;", item)
}

/// The pass as it is, made public.
#[proc_macro_attribute]
pub fn compiler_pass(_: TokenStream, item: TokenStream) -> TokenStream {
    after("use cfg::Cfg; pub", item)
}

fn after(text: &str, item: TokenStream) -> TokenStream {
    let mut tokens: TokenStream = text.parse().unwrap();
    tokens.extend(item);
    tokens
}
