//! The programs in a real terminal, as a person uses them. Every step waits for what the screen shows.
mod attacks;
mod between;
mod field;
#[path = "../folder/mod.rs"]
mod folder;
mod halves;
mod pane;
mod people;
mod printing;
mod scene;
mod sizes;
mod two_terminals;
