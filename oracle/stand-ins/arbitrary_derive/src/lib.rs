//! Stand-in for `#[derive(Arbitrary)]`. It derives nothing. Because a derive
//! expands inside the module that uses it, it is also where the oracle gets
//! its look at the two private fields, without touching the upstream text.
use proc_macro::{TokenStream, TokenTree};

/// The oracle's window. It only reads, but for `spy_forget_all`, which breaks
/// the cycle of counted references through which a builder keeps itself alive.
const SPY: &str = r#"
    impl<II: InputIndicator> ConstraintCircuitBuilder<II> {
        /// (oracle) the value of the private id counter
        pub fn spy_id_counter(&self) -> u64 {
            *self.id_counter.borrow()
        }
        /// (oracle) the registered node of this id
        pub fn spy_registered(&self, id: u64) -> Option<ConstraintCircuitMonad<II>> {
            self.all_nodes.borrow().get(&id).cloned()
        }
        /// (oracle) empty the private map, so that memory is given back
        pub fn spy_forget_all(&self) {
            let nodes = std::mem::take(&mut *self.all_nodes.borrow_mut());
            drop(nodes);
        }
    }
"#;

/// The spy is wanted once, so only for the first of the two enums.
#[proc_macro_derive(Arbitrary)]
pub fn derive(item: TokenStream) -> TokenStream {
    let mut tokens = item.into_iter();
    while let Some(token) = tokens.next() {
        if matches!(&token, TokenTree::Ident(word) if word.to_string() == "enum") {
            let name = tokens.next().map(|name| name.to_string());
            return match name.as_deref() {
                Some("SingleRowIndicator") => SPY.parse().unwrap(),
                _ => TokenStream::new(),
            };
        }
    }
    TokenStream::new()
}
