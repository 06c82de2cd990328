//! The task table, by value: the struct that the host keeps.
use crate::host::{accepted, refused, Answer, INTEGER};
use crate::regions::{plan, Field, Plan};
use crate::{check_size, Refusal, MOST_BYTES};

const TASKS: usize = 4;
const NOBODY: u64 = 4;
const LOCK_RULE: u8 = 1 << 4;

#[derive(Clone, Copy, Default)]
#[repr(C)]
pub struct Task {
    pub busy: u32,
    pub write: u16,
    pub space: u8,
    pub flags: u8,
    pub offset: u64,
    pub length: u64,
    pub value: u64,
    pub made: u64,
    pub held: u64,
}

#[derive(Clone, Copy)]
#[repr(C)]
pub struct Table {
    size: u64,
    holder: u64,
    tasks: [Task; TASKS],
}

/// The table after a call, and its answer.
#[repr(C)]
pub struct Called {
    pub table: Table,
    pub answer: Answer,
}

impl Task {
    #[inline]
    fn plan(self, size: u64) -> Result<Plan, Refusal> {
        let Task { space, flags, offset, length, .. } = self;
        plan(Field { space, flags, offset, length }, self.write != 0, size as usize)
    }

    #[inline]
    fn has_lock_rule(self) -> bool {
        self.flags & LOCK_RULE != 0
    }

    #[inline]
    fn is_bad(self, size: u64) -> bool {
        if self.busy == 0 {
            return false;
        }
        self.busy > 1 || self.write > 1 || self.plan(size).map_or(true, |plan| plan.count() <= self.made)
    }

    #[inline]
    fn locks(self) -> bool {
        self.busy != 0 && self.has_lock_rule() && self.made > 0
    }
}

impl Table {
    #[inline]
    pub fn fresh(size: u64) -> Table {
        Table { size, holder: NOBODY, tasks: [Task::default(); TASKS] }
    }

    #[inline]
    pub fn new(size: u64) -> Called {
        if size > MOST_BYTES as u64 {
            return Called { table: Table::fresh(0), answer: refused(Refusal::TOO_MANY_BYTES) };
        }
        Called { table: Table::fresh(size), answer: accepted(0, 0, 0) }
    }

    #[inline]
    pub fn is_malformed(&self) -> bool {
        if self.size > MOST_BYTES as u64 || self.tasks.iter().any(|task| task.is_bad(self.size)) {
            return true;
        }
        let mut lockers = (0..TASKS).filter(|i| self.tasks[*i].locks());
        match (lockers.next(), lockers.next()) {
            (None, _) => self.holder != NOBODY,
            (Some(one), None) => self.holder != one as u64,
            _ => true,
        }
    }

    /// 27, 31, 24, 30
    #[inline]
    fn check(&self, region: &[u8], task: usize) -> Result<(), Refusal> {
        check_size(region)?;
        if self.is_malformed() {
            return Err(Refusal::MALFORMED_TABLE);
        }
        if task >= TASKS {
            return Err(Refusal::NO_SUCH_TASK);
        }
        if region.len() as u64 != self.size {
            return Err(Refusal::REGION_LENGTH_DIFFERS);
        }
        Ok(())
    }

    /// How many accesses the operation will make.
    #[inline]
    pub fn start(&mut self, region: &[u8], task: usize, begun: Task) -> Result<Answer, Refusal> {
        self.check(region, task)?;
        if self.tasks[task].busy != 0 {
            return Err(Refusal::TASK_BUSY);
        }
        let count = begun.plan(self.size)?.count();
        self.tasks[task] = begun;
        Ok(accepted(0, count as u32, 0))
    }

    /// One load or store of the task.
    #[inline]
    pub fn step(&mut self, region: &mut [u8], task: usize) -> Result<Answer, Refusal> {
        self.check(region, task)?;
        let mut now = self.tasks[task];
        if now.busy == 0 {
            return Err(Refusal::TASK_IDLE);
        }
        let lock = now.has_lock_rule();
        if lock && now.made == 0 && self.holder != NOBODY {
            return Err(Refusal::LOCK_HELD);
        }
        let plan = now.plan(self.size)?;
        now.held = plan.access(region, now.made, now.held, now.value);
        now.made += 1;
        let last = now.made == plan.count();
        if lock {
            self.holder = if last { NOBODY } else { task as u64 };
        }
        self.tasks[task] = if last { Task::default() } else { now };
        Ok(match (last, now.write) {
            (false, _) => accepted(0, 1, 0),
            (true, 0) => accepted(INTEGER, 0, now.held),
            (true, _) => accepted(0, 0, 0),
        })
    }
}
