//! Stand-in for the crate proc_macro2: a token stream that holds nothing. No answer of the oracle asks for one.

pub struct TokenStream;

impl Extend<()> for TokenStream {
    fn extend<I: IntoIterator<Item = ()>>(&mut self, _: I) {}
}

impl IntoIterator for TokenStream {
    type Item = ();
    type IntoIter = std::iter::Empty<()>;
    fn into_iter(self) -> Self::IntoIter {
        std::iter::empty()
    }
}
