//! The C calls of `sctp_assoc`, the association layer of SCTP (RFC 4960) without input or output, under the names that
//! they have in C. The crate `sctp-assoc` has safe calls over these.
//!
//! The header of that library, `include/sctp_assoc.h` in its checkout, says in full what each call does. Its head says
//! what a caller owes, and each call here is unsafe for that: pointers lead to what their types say, for reading or
//! writing; a slot begins as [`sctp_assoc::EMPTY`], is changed by these calls alone and is not copied while it holds an
//! association; and a slot is used by one call at a time. Null may be what [`sctp_assoc_free`] and
//! [`sctp_assoc_set_heap`] get, and the watch of [`sctp_assoc_get_metrics`].
//!
//! To be linked with, it needs the archive that `./library` builds in a checkout of `sctp_assoc`, and that a release
//! has. It takes the file that the environment variable `SCTP_ASSOC_ARCHIVE` names, or finds it in the checkout or the
//! release in which it lies.
//!
//! With the feature `channels` it has the calls of `include/sctp_channels.h` besides: data channels (RFC 8831, RFC
//! 8832), of which the same holds. Their slot is `sctp_peer`, which holds an association and its channels. Then the
//! crate takes the archive that `./library channels` builds, which has both, and that the environment variable
//! `SCTP_CHANNELS_ARCHIVE` names.
#![no_std]
#![deny(missing_docs, unsafe_op_in_unsafe_fn)]
#![allow(non_camel_case_types)]

mod calls;
#[cfg(feature = "channels")]
mod channels;
mod codes;
mod types;

pub use calls::*;
#[cfg(feature = "channels")]
pub use channels::*;
pub use codes::*;
pub use types::*;
