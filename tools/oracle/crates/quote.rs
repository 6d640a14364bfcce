//! Stand-in for the crate quote: `quote!` makes the stream that holds nothing.
extern crate proc_macro2;

pub use proc_macro2::TokenStream;

pub trait ToTokens {
    fn to_tokens(&self, tokens: &mut TokenStream);
}

#[macro_export]
macro_rules! quote {
    ($($any:tt)*) => {
        $crate::TokenStream
    };
}
