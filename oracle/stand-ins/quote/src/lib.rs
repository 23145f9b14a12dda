//! Stand-in: `ToTokens`, and a `quote!` that keeps its argument as text.
pub use proc_macro2::TokenStream;
pub trait ToTokens {
    fn to_tokens(&self, tokens: &mut TokenStream);
}
#[macro_export]
macro_rules! quote { ($($t:tt)*) => { $crate::TokenStream(vec![stringify!($($t)*).to_string()]) }; }
