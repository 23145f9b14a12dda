//! Stand-in: token streams are left out of the comparison; this one holds text.
#[derive(Debug, Clone, Default)]
pub struct TokenStream(pub Vec<String>);
impl IntoIterator for TokenStream {
    type Item = String;
    type IntoIter = std::vec::IntoIter<String>;
    fn into_iter(self) -> Self::IntoIter {
        self.0.into_iter()
    }
}
impl Extend<String> for TokenStream {
    fn extend<I: IntoIterator<Item = String>>(&mut self, it: I) {
        self.0.extend(it);
    }
}
