//! What others may do with the new journal: no more than with the bad one.

use crate::disk::close_new_files;
use std::fs::{File, Metadata, Permissions};
use std::os::unix::fs::{MetadataExt, PermissionsExt};

/// A new file's bits at first: as long as its group is not known, nobody else's.
pub const OWNER: u32 = 0o600;

/// Lets others do with it what they may do with the bad journal, except what the user lets nobody
/// do with new files. If it can't be said, as on a disk without such bits, it stays as it is.
pub fn as_with(bad: &Metadata, new: &File) {
    let Ok(group) = new.metadata().map(|about| about.gid()) else {
        return;
    };
    let bits = bits(bad.mode(), group == bad.gid()) & !close_new_files();
    let _ = new.set_permissions(Permissions::from_mode(bits));
}

/// Who is in another group than the bad journal's, and who is in none of the two, may or may not be
/// in that of the bad one: they are let do what all of these may.
fn bits(bad: u32, same_group: bool) -> u32 {
    let (group, others) = (bad >> 3 & 0o6, bad & 0o6);
    let (group, others) = match same_group {
        true => (group, others),
        false => (group & others, group & others),
    };
    OWNER | group << 3 | others
}
