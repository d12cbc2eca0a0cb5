//! What process.rs names of jobs, threads and exceptions.

use super::Process;
use crate::object::*;
use alloc::boxed::Box;
use alloc::sync::Arc;
use core::future::Future;
use core::pin::Pin;

/// The code of a process that was killed.
pub const TASK_RETCODE_SYSCALL_KILL: i64 = -1024;

/// What jobs, processes and threads have in common.
pub trait Task {
    fn kill(&self);
    fn suspend(&self);
    fn resume(&self);
    fn exceptionate(&self) -> Arc<exception::Exceptionate>;
    fn debug_exceptionate(&self) -> Arc<exception::Exceptionate>;
}

/// Stands for the parent of a process.
pub struct Job {
    base: KObjectBase,
}

impl_kobject!(Job);

impl Job {
    pub fn root() -> Arc<Self> {
        Arc::new(Job { base: KObjectBase::new() })
    }
    pub fn policy(&self) -> job_policy::JobPolicy {
        job_policy::JobPolicy
    }
    pub fn parent(&self) -> Option<Arc<Job>> {
        None
    }
    pub fn add_process(&self, _process: Arc<Process>) -> ZxResult {
        Ok(())
    }
    pub fn remove_process(&self, _id: KoID) {}
    pub fn kill(&self) {}
}

/// What a thread runs.
pub type ThreadFn = fn(Arc<Thread>) -> Pin<Box<dyn Future<Output = ()> + Send>>;

/// A thread, known only by its process.
pub struct Thread {
    base: KObjectBase,
    process: Arc<Process>,
}

impl_kobject!(Thread);

impl Thread {
    pub fn new(process: Arc<Process>) -> Arc<Self> {
        Arc::new(Thread { base: KObjectBase::new(), process })
    }
    pub fn proc(&self) -> &Arc<Process> {
        &self.process
    }
    pub fn kill(&self) {}
    pub fn suspend(&self) {}
    pub fn resume(&self) {}
    pub fn set_first_thread(&self) {}
    pub fn start(&self, _run: ThreadFn) -> ZxResult {
        Err(ZxError::NOT_SUPPORTED)
    }
    pub fn with_context<T>(&self, change: impl FnOnce(&mut UserContext) -> T) -> ZxResult<T> {
        Ok(change(&mut UserContext))
    }
}

/// Stands for the registers of a thread.
pub struct UserContext;

impl UserContext {
    pub fn setup_uspace(&mut self, _entry: usize, _stack: usize, _arguments: &[usize; 3]) {}
    pub fn enable_extended_state(&mut self) {}
}

pub mod exception {
    //! Stand-ins for exception channels.

    use alloc::sync::Arc;

    pub enum ExceptionChannelType {
        Process,
        Debugger,
    }

    pub struct Exceptionate;

    impl Exceptionate {
        pub fn new(_kind: ExceptionChannelType) -> Arc<Self> {
            Arc::new(Exceptionate)
        }
        pub fn shutdown(&self) {}
        pub fn has_channel(&self) -> bool {
            false
        }
    }
}

pub mod job_policy {
    //! Stand-ins for a job's policy, which allows everything.

    pub enum PolicyAction {
        Allow,
        Deny,
        Kill,
    }

    pub enum PolicyCondition {
        NewSocket,
    }

    pub struct JobPolicy;

    impl JobPolicy {
        pub fn get_action(&self, _condition: PolicyCondition) -> Option<PolicyAction> {
            None
        }
    }
}
