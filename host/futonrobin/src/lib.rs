//! The proved text screen and its mirror, for Rust.
//!
//! [`Screen`], [`Mirror`], [`Report`] and [`KeyTable`] own their bytes and are valid from the moment they exist; what they do is done by the
//! archive of the Rattle crates, whose functions are proved. A call that the documents refuse answers a [`Refusal`] and changes nothing. What
//! a screen or a mirror shows is read by the trait [`Shown`].
//!
//! [`drop_in::Screen`] has the text-mode methods of the BASIC runtime's own `Screen`, by name and signature.
//!
//! ```
//! use futonrobin::{Mirror, Screen, Shown};
//!
//! let mut screen = Screen::new(80, 1);
//! let mut mirror = Mirror::new(80, 1);
//! for ch in *b"WARD 7" {
//!     screen.type_char(ch)?;
//!     let level = mirror.arrive(screen.report_step())?;
//!     assert!(level);
//! }
//! screen.home()?; // its report is lost
//! screen.type_char(b'w')?;
//! assert!(!mirror.arrive(screen.report_step())?); // early: the mirror knows that it is behind
//! assert_eq!(mirror.snapshot(), b"WARD 7");
//! assert!(mirror.arrive(screen.report_full())?);
//! assert_eq!(mirror.snapshot(), b"wARD 7");
//! let screen = Screen::new(80, 2); // the terminal restarts, in a sitting of a larger number
//! assert!(mirror.arrive(screen.report_full())?);
//! assert_eq!((mirror.sitting(), mirror.serial(), mirror.snapshot()), (2, 0, vec![]));
//! # Ok::<(), futonrobin::Refusal>(())
//! ```
//!
//! No dependency, and `unsafe` in one file, `ffi`.
#![deny(unsafe_code)]
#![warn(missing_docs)]

pub mod drop_in;
#[allow(unsafe_code)]
pub mod ffi;
mod keys;
pub mod layout;
mod mirror;
mod pair;
mod refusal;
mod report;
mod screen;
mod shown;
mod waiting;

pub use keys::KeyTable;
pub use mirror::Mirror;
pub use pair::Pair;
pub use refusal::Refusal;
pub use report::{Kind, Report};
pub use screen::Screen;
pub use shown::{Cell, Shown};
pub use waiting::Waited;
