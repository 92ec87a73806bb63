//! The Rust face of Nuoskelma: envelopes of streams, in whole numbers.
//!
//! A stream is an east part and a north part, whole numbers in hundredths of a millimetre per second, each from -[`LIMIT`] to [`LIMIT`]. Every call takes any
//! input and ends; it gives what it promises, or a [`Refusal`] with its number and place. The library under this crate is proved; what this crate adds is the
//! lending, and is tested.
//!
//! [`Samples`] and [`Envelope`] own their parts and lend what a call asks for.
//!
//! ```
//! use nuoskelma::{Envelope, Samples};
//!
//! // seven samples, and their envelope
//! let samples = Samples::from_iter([(0, 0), (4, 0), (4, 3), (0, 3), (2, 1), (2, 5), (4, 0)]);
//! let envelope = samples.envelope()?;
//! assert!(envelope.corners().eq([(0, 3), (2, 5), (4, 3), (4, 0), (0, 0)]));
//!
//! // the strongest set on the course (-1, 1), and whether streams lie inside or on the outline
//! assert_eq!(envelope.strongest(-1, 1)?.set, 3);
//! assert!(envelope.covers(2, 1)? && envelope.covers(0, 1)? && !envelope.covers(-1, 1)?);
//!
//! // joined with that of two more samples
//! let wider = envelope.join(&Envelope::of(&[6, 6], &[2, 1])?)?;
//! assert!(wider.corners().eq([(0, 3), (2, 5), (6, 2), (6, 1), (4, 0), (0, 0)]));
//!
//! // a surge added: the strongest set of both together
//! let surge = Envelope::of(&[1, 3], &[2, 2])?;
//! assert_eq!(wider.plus(&surge)?.strongest(-1, 1)?.set, 3 + 1);
//! # Ok::<(), nuoskelma::Refusal>(())
//! ```
//!
//! Under them is a function for each entry of the library, which allocates nothing. Samples, and the corners of a ring, come as two slices of one length, one
//! east, one north, at most [`MOST`] of them. Results go to the front of slices that the caller lends, and what lies behind them stays. Some functions are lent
//! scratch: [`scratch_words`] says how much, [`Scratch`] has it ready.
//!
//! ```
//! use nuoskelma::{cover, ring, strongest, Scratch};
//!
//! let (east, north) = ([0, 4, 4, 0, 2, 2, 4], [0, 0, 3, 3, 1, 5, 0]);
//! let (mut easts, mut norths) = ([0; 7], [0; 7]);
//! let corners = ring(&east, &north, &mut easts, &mut norths, &mut Scratch::of(7))?;
//! let (easts, norths) = (&easts[..corners], &norths[..corners]);
//! assert_eq!((easts, norths), (&[0, 2, 4, 4, 0][..], &[3, 5, 3, 0, 0][..]));
//!
//! assert_eq!(strongest(easts, norths, -1, 1)?.set, 3);
//! assert!(cover(easts, norths, 2, 1)? && cover(easts, norths, 0, 1)?);
//! # Ok::<(), nuoskelma::Refusal>(())
//! ```
#![deny(missing_docs, unsafe_code)]

mod door;
mod envelope;
#[allow(unsafe_code)]
mod face;
mod outline;
mod record;
mod refusal;
mod samples;
mod scratch;
mod streams;
mod using;

pub use door::{part, readings};
pub use envelope::{Edges, Envelope};
pub use outline::{bridge, chains, pick, ring, round, Bridge, Chains, Round};
pub use record::{read_record, record_bytes, write_record, Sense, Version};
pub use refusal::{DoorRefusal, Refusal};
pub use samples::{BothChains, Samples};
pub use scratch::{scratch_words, Scratch};
pub use streams::Streams;
pub use using::{cover, join, strongest, sum, turn_about, Edge, Hand, StrongestSet};

/// The limit of a part, of either sign.
pub const LIMIT: i32 = 1_000_000;

/// The most samples, list items, corners or joined corners.
pub const MOST: usize = 65_536;
