//! Ours, in place of the crate `spin`: dtb/mod.rs has a static of this type, which the memory build never reads.
pub mod once {
    use std::sync::OnceLock;

    pub struct Once<T>(OnceLock<T>);

    impl<T> Once<T> {
        pub const fn new() -> Self {
            Self(OnceLock::new())
        }
        pub fn get(&self) -> Option<&T> {
            self.0.get()
        }
        pub fn call_once(&self, make: impl FnOnce() -> T) -> &T {
            self.0.get_or_init(make)
        }
    }
}
