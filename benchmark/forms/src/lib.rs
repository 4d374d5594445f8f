//! Making, walking and windows once more in plain Rust, with the chain passed in two other ways, to see what passing a chain costs.
//! `by_value` copies it at each call; `flat` lends the list T, D, F, T, D, F, .. as C gives it, as the crates do.
//! `by_entries` is another way to a histogram, `handed` another way to pass the instrument's state.
pub mod by_entries;
pub mod by_value;
pub mod flat;
pub mod handed;
