//! An access to a cell: the branch at which it was chosen, and the schedule vector it had then.
//! Document 01, "Support rules", scheduling (a) and (d).

use crate::rt::VersionVec;

#[derive(Debug, Clone, Copy)]
pub(crate) struct Access {
    path_id: usize,
    version: VersionVec,
}

impl Access {
    pub(crate) fn set_or_create(access: &mut Option<Self>, path_id: usize, version: &VersionVec) {
        *access = Some(Access {
            path_id,
            version: *version,
        });
    }

    /// Position of the access's schedule record among all records.
    pub(crate) fn path_id(&self) -> usize {
        self.path_id
    }

    pub(crate) fn version(&self) -> &VersionVec {
        &self.version
    }

    pub(crate) fn happens_before(&self, version: &VersionVec) -> bool {
        self.version <= *version
    }
}
