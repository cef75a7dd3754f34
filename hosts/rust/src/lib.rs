//! Runs layout sheets: small programs that make records, assign to them and
//! state what must always hold. Where a value moves, a solver's proposals
//! move the others; a proposal is taken only where every required constraint
//! holds afterwards.
//!
//! [`Program::read`] reads a sheet as it is typed. [`run`] takes a program's
//! words, [`Tables`], proposals and a budget, and gives an [`Answer`].
//! [`assign`] sets fields by a list of [`Entries`], each [`Entry`] a target and
//! a literal, and gives a [`ListAnswer`]. [`ask`] takes the proposals of two
//! solvers for one statement, and says in [`Asked`] whose was accepted. A
//! [`Program`] prints as its text, and [`write()`] gives that of words alone.
//! The work is done by `libcordbasin.a`, each function of which is proved to
//! meet its contract; this crate is not proved. It links that archive, which
//! `tools/native cordbasin` writes, and has no dependencies. A call allocates
//! nothing and keeps nothing, so that two threads may run on tables of their
//! own.
//!
//! # Example
//!
//! ```
//! use cordbasin::{run, Outcome, Program, Tables, Value};
//!
//! let program = Program::read(
//!     "x := new {bytes: 64, samples: 16};
//!      always required x.bytes = 4 * x.samples;
//!      x.samples := 32",
//! )?;
//! // No change, no change, and 128 for location 64, the first field of record 0.
//! let proposals = [0, 0, 1, 64, 128];
//! let mut tables = Tables::fresh();
//!
//! let answer = run(program.words(), &mut tables, &proposals, 100);
//!
//! assert_eq!(answer.outcome, Outcome::Finished);
//! assert_eq!((answer.steps, answer.accepted), (3, 3));
//! assert!(answer.unread.is_empty());
//! // x is variable 0, bytes label 0 and samples label 1: by first appearance.
//! assert_eq!(program.variable("x"), Some(0));
//! assert_eq!(tables.variable(0), Some(Value::Ref(0)));
//! assert_eq!(tables.field(0, 1), Some(Value::Int(32)));
//! assert_eq!(tables.at(0, &[0]), Some(Value::Int(128)));
//! assert_eq!(tables.to_string(), "v0=ref 0\nr0=2\nr0.0=int 128\nr0.1=int 32\nc0=10\n");
//! # Ok::<(), cordbasin::Refusal>(())
//! ```
//!
//! A text that is no program is refused with a place, and prints so that the
//! typist sees it:
//!
//! ```
//! let refusal = cordbasin::Program::read("x := 1;\nx := new {a: 1;}").unwrap_err();
//!
//! assert_eq!(refusal.outcome, cordbasin::Outcome::UnfitText);
//! assert_eq!(refusal.to_string(), "20 at line 2, column 15: text unfit
//! x := new {a: 1;}
//!               ^");
//! ```
//!
//! A run's refusal prints in the same way. The tables hold what the last
//! accepted statement left, and the proposal that was turned down is unread:
//!
//! ```
//! use cordbasin::{run, Outcome, Program, Tables};
//!
//! let program = Program::read("x := new {bytes: 64};
//! always required x.bytes > 0 /\\ weak x.samples = 16")?;
//! let answer = run(program.words(), &mut Tables::fresh(), &[0, 0], 100);
//!
//! assert_eq!(answer.outcome, Outcome::NoCell);
//! assert_eq!(answer.unread, [0]);
//! let refusal = program.refusal(&answer).expect("a refusal");
//! assert_eq!(refusal.to_string(),
//! "7 at line 2, column 37: absent variable, missing field, path through a non-record
//! always required x.bytes > 0 /\\ weak x.samples = 16
//!                                     ^");
//! # Ok::<(), cordbasin::Refusal>(())
//! ```
//!
//! A list goes on from the tables that a run left, one proposal for each entry,
//! up to the first that is refused:
//!
//! ```
//! use cordbasin::{assign, run, Entries, Literal, Outcome, Program, Tables, Value, LONGEST_ENTRY};
//!
//! let program = Program::read("x := new {bytes: 64, samples: 16};
//!     always required x.bytes = 4 * x.samples; x.samples := 32")?;
//! let mut tables = Tables::fresh();
//! let answer = run(program.words(), &mut tables, &[0, 0, 1, 64, 128], 100);
//! assert_eq!(answer.outcome, Outcome::Finished);
//!
//! let mut room = [0; 2 * LONGEST_ENTRY];
//! let mut list = Entries::new(&mut room);
//! for samples in [40, 48] {
//!     let entry = program.entry("x.samples", Literal::Int(samples));
//!     assert!(list.push(entry.expect("names of the program")));
//! }
//! // 160 for x.bytes, and no change.
//! let answer = assign(program.words(), &mut tables, &list, &[1, 64, 160, 0], 100);
//!
//! assert_eq!(answer.to_string(), "19 at entry 1: a required part is not met");
//! assert_eq!(tables.at(0, &[0]), Some(Value::Int(160)));
//! assert_eq!(answer.unread, [0]);
//! # Ok::<(), cordbasin::Refusal>(())
//! ```
//!
//! Two solvers may be asked about one statement, such as the one that a run
//! has stopped at for want of a proposal. The second's is tried where the
//! first's is turned down, and the accepted words come back as a part of the
//! slice that they came from:
//!
//! ```
//! use cordbasin::{ask, run, Outcome, Program, Solver, Tables, Value};
//!
//! let program = Program::read("x := new {bytes: 64, samples: 16};
//! always required x.bytes = 4 * x.samples;
//! x.samples := 32")?;
//! let mut tables = Tables::fresh();
//! let answer = run(program.words(), &mut tables, &[0, 0], 100);
//! assert_eq!(answer.outcome, Outcome::NoProposal);
//!
//! // No change, says the first, and 128 for x.bytes, says the second.
//! let (first, second) = ([0], [1, 64, 128]);
//! let asked = ask(program.words(), &mut tables.clone(), answer.place, &first, &second);
//! assert_eq!(asked.accepted, Some((Solver::Second, &second[..])));
//! assert_eq!(asked.to_string(), "0 at word 27: finished, by the second solver");
//!
//! let asked = ask(program.words(), &mut tables, answer.place, &first, &[1, 65, 16]);
//! let refusal = program.asked_refusal(&asked).expect("a refusal");
//! assert_eq!(refusal.to_string(),
//! "17 at line 3, column 1: an entry names a cell or payload it may not
//! x.samples := 32
//! ^");
//! assert_eq!(tables.at(0, &[1]), Some(Value::Int(16)));
//! # Ok::<(), cordbasin::Refusal>(())
//! ```
//!
//! A program is written back in one form, whoever typed it. Words alone have no
//! names: they get `v0` and `f0`, or those that are given. The text stands in
//! bytes that the host lends:
//!
//! ```
//! use cordbasin::{write, write_named, Program, LONGEST_TEXT};
//!
//! let program = Program::read("x:=new{size:(2)}; always((x.size*2)>3)")?;
//! assert_eq!(program.to_string(), "x := new {size: 2};\nalways required x.size * 2 > 3");
//!
//! let words = [2, 2, 0, 1, 0, 23, 2, 3, 1, 3, 25, 9, 25, 3, 24, 0, 1, 0, 23, 2, 23, 3];
//! assert_eq!(program.words(), words);
//! let mut room = [0; LONGEST_TEXT];
//! let text = write(&words, &mut room).expect("a text");
//! assert_eq!(text, "v0 := new {f0: 2};\nalways required v0.f0 * 2 > 3");
//! let text = write_named(&words, &["box"], &["width"], &mut room).expect("a text");
//! assert_eq!(text, "box := new {width: 2};\nalways required box.width * 2 > 3");
//!
//! let refusal = write_named(&words, &["box"], &["new"], &mut room).unwrap_err();
//! assert_eq!(refusal.to_string(), "24 at label 0: unfit names");
//! # Ok::<(), cordbasin::Refusal>(())
//! ```

#![no_std]
#![warn(missing_docs)]

mod answer;
mod asking;
mod call;
mod entry;
mod linked;
mod program;
mod tables;
mod text;

pub use answer::{Answer, ListAnswer, Outcome};
pub use asking::{Asked, Solver};
pub use call::{ask, ask_words, assign, assign_words, run, run_words};
pub use call::{read_words, write_words, Reading, Writing};
pub use call::{LARGEST_BUDGET, LONGEST_PROGRAM, LONGEST_TEXT, NAMES_WORDS};
pub use entry::{Entries, Entry, Literal, LONGEST_ENTRY};
pub use program::{Program, Refusal, Spot};
pub use tables::{Tables, Value, CONSTRAINTS_WORDS, ENVIRONMENT_WORDS, HEAP_WORDS};
pub use text::{write, write_named, Numbered, Unwritten};
