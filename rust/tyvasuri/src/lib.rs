//! A checker for timing sheets, proved to answer as their build definition
//! (document 01) says, with the change requests (document 02) that
//! docs/CHANGES.md names.
//!
//! A sheet is a row of bytes. It lists modules; a module has modes, and a mode
//! has tasks (offset, cost, LET, period) and switches to the module's other
//! modes. A mode is left by SW at multiples of all its task periods, and by SX
//! also between them, at ticks where no instance is under way. The checker says
//! whether a sheet is well formed, what its modes, states and modules can demand,
//! and whether every deadline up to its horizon can be met whatever switches are
//! made: the quick test, and the exact test with a tape for each module as the
//! witness where it says over.
//!
//! # Two ways to call
//!
//! - The functions of this root take any bytes, and answer or refuse in one
//!   call.
//! - [`Sheet::judge`] judges once and gives a [`Sheet`], on which the same calls
//!   are methods.
//!
//! A call that needs memory borrows it from the caller, and nothing is kept
//! between calls. Either the caller lends slices, or a [`Memory`], which is long
//! enough for every sheet. A refused call changes nothing in what it was lent.
//! Of the working memory no caller should read what a call left there.
//!
//! ```
//! use tyvasuri::{Exact, Memory, Sheet};
//!
//! let bytes = include_bytes!("../../../examples/a_two_modules.sheet");
//! let sheet = Sheet::judge(bytes)?;
//! let mut memory = Memory::new();
//! match sheet.exact_test_in(&mut memory) {
//!     Exact::Clear => println!("clear up to tick {}", sheet.horizon()),
//!     Exact::Over { start, end, demand, tapes, .. } => {
//!         println!("from tick {start} to tick {end} {demand} ticks of work are due");
//!         for (module, tape) in tapes.into_iter().enumerate() {
//!             println!("module {module} is then in the modes {tape:?}");
//!         }
//!     }
//! }
//! # Ok::<(), tyvasuri::Refusal>(())
//! ```
//!
//! A whole program over the crate is `examples/morning_build.rs`.
//!
//! # Building
//!
//! The crate links the checker's archive, `libchecker.a`. Its build makes the
//! archive by `c/archive`, which proves it first. Where there is no `rt`, it
//! takes `target/staticlib/libchecker.a` as it stands. The variable
//! `TYVASURI_ARCHIVE`, a whole path, names another archive and goes before both.

#![deny(missing_docs)]
#![deny(unsafe_code)]

mod answer;
mod archive;
mod memory;
mod query;
mod refusal;
mod sheet;
mod verdict;

pub use memory::Memory;
pub use query::{exact_test, judge, mode_demand, module_demand, quick_test, report, state_demand};
pub use refusal::{Fault, Refusal};
pub use sheet::{Counts, Sheet};
pub use verdict::{Exact, Quick, Tapes};
