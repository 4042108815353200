//! Calls 32 and 33: the preemption lock (document 02, e).

use super::refuse;
use crate::machine::{Caller, Outcome};
use crate::record::{Lock, Partition, LEVELS};

impl Partition {
    /// 32 LOCK_PREEMPTION. 1: not NORMAL. 4: level 16.
    pub(super) fn lock_preemption(&mut self, caller: Caller) -> Outcome {
        let Caller::Process(id) = caller else {
            return refuse(1);
        };
        if self.lock.level == LEVELS {
            return refuse(4);
        }
        if self.lock.level == 0 {
            self.lock.holder = id;
        }
        self.lock.level += 1;
        Outcome::DONE
    }

    /// 33 UNLOCK_PREEMPTION. 1: not NORMAL. 1: level 0.
    pub(super) fn unlock_preemption(&mut self, caller: Caller) -> Outcome {
        if caller == Caller::MainProgram || !self.locked() {
            return refuse(1);
        }
        self.lock.level -= 1;
        if self.lock.level == 0 {
            self.lock = Lock::OPEN;
        }
        Outcome::DONE
    }
}
