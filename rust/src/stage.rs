//! The stages of a job.

use crate::numbers::numbers;
use crate::raw;

numbers! {
    /// The stages of a [`Job`](crate::Job), and where the answers lead it.
    ///
    /// After a conflict the name is somebody else's: the player gets another, or is told. An add
    /// without room and one that gave up have changed nothing, and a fresh job may be sent later.
    Stage: u8 {
        /// An add that sends A next. NoError ends it done, YxDomain leads to before B, NoRoom ends
        /// it without room.
        AddBeforeA = raw::ADD_BEFORE_A,
        /// An add that sends B next. NoError ends it done; NxDomain leads back to before A, or,
        /// where it was the sixth request, ends it as given up; NxRrset ends it in conflict, NoRoom
        /// without room.
        AddBeforeB = raw::ADD_BEFORE_B,
        /// An add that has succeeded.
        AddDone = raw::ADD_DONE,
        /// An add that found the name static or held by another.
        AddConflict = raw::ADD_CONFLICT,
        /// An add that found no room.
        AddNoRoom = raw::ADD_NO_ROOM,
        /// An add whose sixth request was answered NxDomain.
        AddGaveUp = raw::ADD_GAVE_UP,
        /// A remove that sends its first request next. NoError leads to before the second, NxRrset
        /// ends it as not ours.
        RemoveBeforeFirst = raw::REMOVE_BEFORE_FIRST,
        /// A remove that sends its second request next. NoError ends it with the name gone,
        /// anything else with the name kept.
        RemoveBeforeSecond = raw::REMOVE_BEFORE_SECOND,
        /// A remove whose owner does not hold the name.
        RemoveNotOurs = raw::REMOVE_NOT_OURS,
        /// A remove that has deleted the name.
        RemoveGone = raw::REMOVE_GONE,
        /// A remove that has left the name.
        RemoveKept = raw::REMOVE_KEPT,
    }
}

impl Stage {
    /// Whether it is a stage of an add; else it is one of a remove.
    pub fn is_of_add(self) -> bool {
        match self {
            Stage::AddBeforeA
            | Stage::AddBeforeB
            | Stage::AddDone
            | Stage::AddConflict
            | Stage::AddNoRoom
            | Stage::AddGaveUp => true,
            Stage::RemoveBeforeFirst
            | Stage::RemoveBeforeSecond
            | Stage::RemoveNotOurs
            | Stage::RemoveGone
            | Stage::RemoveKept => false,
        }
    }
}
