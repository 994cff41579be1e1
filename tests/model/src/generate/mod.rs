//! Images, paths, batches of paths, ranges, addresses and change files to compare
//! implementations on, made from a seed.
//!
//! Sound images have many shapes; damaged ones start from a sound one. Paths
//! aim at what the image holds, so that most of them reach the records, and a
//! part of them is then spoilt. So do change files.

mod addresses;
mod aims;
mod changes;
mod damage;
mod images;
mod numbers;
mod paths;
mod records;
mod rooms;
mod spelling;
mod texts;

pub use addresses::{address, range};
pub use aims::{record, Aims};
pub use changes::{changes, fold_limit, FOLD_LIMITS};
pub use damage::damaged;
pub use images::{drafts, drafts_of, limit, many_blocks, sound, LIMITS};
pub use numbers::Rng;
pub use paths::{batch, path, relation_name};
pub use records::{encode, ends, octets, Draft};
pub use rooms::{answers, batch_places, byte_room, enough_places, places, room};
