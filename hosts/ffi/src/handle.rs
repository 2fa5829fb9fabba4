//! What C holds by a pointer.
//!
//! A handle's memory is never given back to the system, so that a call which takes a freed one
//! detects that, and does not read memory that is now used for something else.
use crate::fork::Process;
use crate::misuse::Misuse;
use std::cell::UnsafeCell;
use std::collections::VecDeque;
use std::mem;
use std::ptr;
use std::sync::atomic::{AtomicBool, Ordering};
use std::sync::{Mutex, MutexGuard, PoisonError};

/// This many freed handles of a kind are kept before the oldest is used again.
pub const KEPT: usize = 1000;

/// A handle, open or freed.
#[derive(Debug)]
pub struct Handle<T> {
    is_open: AtomicBool,
    /// What C holds, and the process that made it. None if it is freed.
    content: UnsafeCell<Option<Content<T>>>,
}

#[derive(Debug)]
struct Content<T> {
    value: T,
    process: Process,
}

// SAFETY: many threads have `&T` at once, which `T: Sync` allows, and the one that frees the handle
// or has `&mut T` may be any, which `T: Send` allows. The caller keeps these apart.
unsafe impl<T: Send + Sync> Sync for Handle<T> {}

/// The freed handles of a kind, the oldest first.
#[derive(Debug)]
pub struct Kind<T: 'static> {
    name: &'static str,
    freed: Mutex<VecDeque<&'static Handle<T>>>,
}

impl<T: Send + Sync> Kind<T> {
    /// A kind that errors call by this name.
    #[must_use]
    pub const fn new(name: &'static str) -> Kind<T> {
        Kind { name, freed: Mutex::new(VecDeque::new()) }
    }

    /// A handle of this value.
    pub fn open(&'static self, value: T) -> Result<*mut Handle<T>, Misuse> {
        let handle = self.next()?;
        // SAFETY: the handle is freed, and this call is the only one that has it: no call that C
        // makes may use it.
        unsafe { *handle.content.get() = Some(Content { value, process: Process::this() }) };
        handle.is_open.store(true, Ordering::Release);
        Ok(ptr::from_ref(handle).cast_mut())
    }

    fn next(&'static self) -> Result<&'static Handle<T>, Misuse> {
        let oldest = self
            .freed()
            .and_then(|mut freed| if freed.len() >= KEPT { freed.pop_front() } else { None });
        oldest.map_or_else(Handle::new, Ok)
    }

    /// The freed ones. In a child process nobody waits for them: the thread that had them when the
    /// process forked may not be there.
    fn freed(&self) -> Option<MutexGuard<'_, VecDeque<&'static Handle<T>>>> {
        if Process::this().is_child() {
            return self.freed.try_lock().ok();
        }
        Some(self.freed.lock().unwrap_or_else(PoisonError::into_inner))
    }

    /// What the handle keeps. The process that made it is not asked.
    ///
    /// # Safety
    ///
    /// The handle is null or one of this kind, and no other call frees it or has it by `value_mut`
    /// as long as the answer lives.
    unsafe fn content<'a>(&self, at: *const Handle<T>) -> Result<&'a Content<T>, Misuse> {
        // SAFETY: a handle's memory stays.
        let handle = unsafe { at.as_ref() }.ok_or_else(|| self.is("null"))?;
        if !handle.is_open.load(Ordering::Acquire) {
            return Err(self.is("freed"));
        }
        // SAFETY: the caller vouches that nobody changes it.
        unsafe { &*handle.content.get() }.as_ref().ok_or_else(|| self.is("freed"))
    }

    /// The value of a handle, in any process.
    ///
    /// # Safety
    ///
    /// As for `content`.
    pub unsafe fn value<'a>(&self, at: *const Handle<T>) -> Result<&'a T, Misuse> {
        // SAFETY: the caller vouches for it.
        unsafe { self.content(at) }.map(|content| &content.value)
    }

    /// The value of a handle that this process has made.
    ///
    /// # Safety
    ///
    /// As for `content`.
    pub unsafe fn own_value<'a>(&self, at: *const Handle<T>) -> Result<&'a T, Misuse> {
        // SAFETY: the caller vouches for it.
        let content = unsafe { self.content(at) }?;
        if content.process == Process::this() {
            Ok(&content.value)
        } else {
            Err(Misuse::Forked(self.name))
        }
    }

    /// The value of a handle, to change it, in any process.
    ///
    /// # Safety
    ///
    /// The handle is null or one of this kind, and no other call uses it as long as the answer
    /// lives.
    pub unsafe fn value_mut<'a>(&self, at: *mut Handle<T>) -> Result<&'a mut T, Misuse> {
        // SAFETY: as for `content`.
        let handle = unsafe { at.as_ref() }.ok_or_else(|| self.is("null"))?;
        if !handle.is_open.load(Ordering::Acquire) {
            return Err(self.is("freed"));
        }
        // SAFETY: the caller vouches that no other call uses it.
        let content = unsafe { &mut *handle.content.get() }.as_mut();
        content.map(|content| &mut content.value).ok_or_else(|| self.is("freed"))
    }

    /// Frees a handle, and gives its value to `end` in the process that made it. In another one the
    /// value is left as it is: it has a thread and a connection there.
    ///
    /// # Safety
    ///
    /// The handle is null or one of this kind, and no other call uses it.
    pub unsafe fn free(&'static self, at: *mut Handle<T>, end: impl FnOnce(T)) {
        // SAFETY: a handle's memory stays.
        let Some(handle) = (unsafe { at.as_ref() }) else { return };
        if !handle.is_open.swap(false, Ordering::AcqRel) {
            return;
        }
        // SAFETY: it was open, this call has closed it, and no other one uses it.
        let Some(Content { value, process }) = (unsafe { &mut *handle.content.get() }).take()
        else {
            return;
        };
        if process != Process::this() {
            mem::forget(value);
            return;
        }
        if let Some(mut freed) = self.freed() {
            freed.push_back(handle);
        }
        end(value);
    }

    fn is(&self, what: &str) -> Misuse {
        Misuse::Invalid(format!("the pointer to a {} is {what}", self.name))
    }
}

impl<T> Handle<T> {
    /// A freed one. Its memory is never given back.
    fn new() -> Result<&'static Handle<T>, Misuse> {
        let mut one = Vec::new();
        one.try_reserve_exact(1).map_err(|_| Misuse::OutOfMemory)?;
        one.push(Handle { is_open: AtomicBool::new(false), content: UnsafeCell::new(None) });
        Ok(&one.leak()[0])
    }
}

#[cfg(test)]
mod tests {
    use super::*;

    #[test]
    fn a_freed_handle_is_reported_until_many_more_are_freed() {
        static NUMBERS: Kind<u64> = Kind::new("number");
        let first = NUMBERS.open(7).unwrap();
        // SAFETY: this test makes one call after the other.
        unsafe {
            assert_eq!(NUMBERS.value(first).unwrap(), &7);
            *NUMBERS.value_mut(first).unwrap() = 8;
            assert_eq!(NUMBERS.own_value(first).unwrap(), &8);
            let mut ended = 0;
            NUMBERS.free(first, |value| ended += value);
            NUMBERS.free(first, |value| ended += value);
            NUMBERS.free(ptr::null_mut(), |value| ended += value);
            assert_eq!(ended, 8);
            for number in 1..KEPT as u64 {
                let other = NUMBERS.open(number).unwrap();
                assert_ne!(other, first);
                NUMBERS.free(other, drop);
                assert!(matches!(NUMBERS.value(first), Err(Misuse::Invalid(_))));
                assert!(matches!(NUMBERS.value_mut(first), Err(Misuse::Invalid(_))));
            }
            // No more memory is taken than that.
            assert_eq!(NUMBERS.open(9).unwrap(), first);
            assert_eq!(NUMBERS.value(first).unwrap(), &9);
        }
    }
}
