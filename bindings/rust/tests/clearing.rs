//! The store of a working case is cleared before it is given back: an allocator looks at what it gets.

use std::alloc::{GlobalAlloc, Layout, System};
use std::sync::atomic::{AtomicUsize, Ordering};
use yadvorkhul::{Case, WorkingCase};

static WATCHED: AtomicUsize = AtomicUsize::new(usize::MAX); // bytes of the store
static GIVEN_BACK: AtomicUsize = AtomicUsize::new(0);
static UNCLEARED: AtomicUsize = AtomicUsize::new(0);

struct Watching;

unsafe impl GlobalAlloc for Watching {
    unsafe fn alloc(&self, layout: Layout) -> *mut u8 {
        System.alloc(layout)
    }

    unsafe fn alloc_zeroed(&self, layout: Layout) -> *mut u8 {
        System.alloc_zeroed(layout)
    }

    unsafe fn dealloc(&self, block: *mut u8, layout: Layout) {
        if layout.size() == WATCHED.load(Ordering::SeqCst) {
            GIVEN_BACK.fetch_add(1, Ordering::SeqCst);
            let bytes = std::slice::from_raw_parts(block, layout.size());
            UNCLEARED.fetch_add(usize::from(bytes.iter().any(|&byte| byte != 0)), Ordering::SeqCst);
        }
        System.dealloc(block, layout)
    }
}

#[global_allocator]
static ALLOCATOR: Watching = Watching;

#[test]
fn store_is_cleared() {
    let case = Case {
        costs: vec![2, 6, 5, 3, 1, 4],
        supplies: vec![3, 3, 1],
        demands: vec![3, 2],
        table: vec![99, 20, 24, 20],
        ..Case::default()
    };
    WATCHED.store(yadvorkhul::work::store_cells(3, 2) * 8, Ordering::SeqCst);
    let work = WorkingCase::enter(&case).unwrap();
    let other = work.clone();
    drop(work);
    drop(other);
    assert!(WorkingCase::enter(&Case { demands: vec![3, 4001], ..case }).is_err());
    assert_eq!((GIVEN_BACK.load(Ordering::SeqCst), UNCLEARED.load(Ordering::SeqCst)), (3, 0));
}
