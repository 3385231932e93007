//! A fault of memory during a call is a difference too: the library read or wrote what was not lent.

use std::ffi::c_int;
use std::ptr::null_mut;
use std::sync::atomic::{AtomicPtr, Ordering};

use crate::Subject;

const BUS_ERROR: c_int = 7;
const SEGMENTATION_FAULT: c_int = 11;

extern "C" {
    fn signal(number: c_int, handler: extern "C" fn(c_int)) -> usize;
}

static SUBJECT: AtomicPtr<Subject> = AtomicPtr::new(null_mut());

/// The subject to report where a fault comes before the next one is named. It must live that long.
pub fn asking_about(subject: Option<&Subject>) {
    let subject = subject.map_or(null_mut(), |subject| (subject as *const Subject).cast_mut());
    SUBJECT.store(subject, Ordering::SeqCst);
}

pub fn report_faults() {
    // SAFETY: the handler does not return.
    unsafe {
        signal(SEGMENTATION_FAULT, on_fault);
        signal(BUS_ERROR, on_fault);
    }
}

/// The library takes no memory and holds no lock, so that the report can be made from here.
extern "C" fn on_fault(_number: c_int) {
    // SAFETY: null, or a subject that lives while it is asked about.
    let subject = unsafe { SUBJECT.load(Ordering::SeqCst).as_ref() };
    match subject {
        Some(subject) => {
            crate::report(subject, "the library read or wrote memory that was not lent to it");
        }
        None => println!("memory was read or written that may not be"),
    }
    std::process::exit(1);
}
