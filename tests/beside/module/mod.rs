//! The module under test: its archive, and the record that its calls work on.

mod archive;
mod calls;
mod record;

pub use archive::{bundle_step, frame_check, log_fields};
pub use record::{Record, LIKE_A_SLOT, SLOT};
