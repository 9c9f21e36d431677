//! Stands in for `num`, which pointstore.rs names and of which it uses nothing.
//! It can't change what is compared: it is empty.
