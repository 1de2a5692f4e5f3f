//! A heap that the program sets, by the call of `sctp-assoc-sys`: the library takes all of its memory there, and gives
//! each block back. One test, as the heap is the process's.
mod support;

use sctp_assoc::{Config, Error, PayloadType};
use sctp_assoc_sys::{sctp_assoc_heap, sctp_assoc_set_heap, SCTP_ASSOC_DONE};
use std::alloc::{alloc, dealloc, realloc, Layout};
use std::ffi::c_void;
use std::ptr;
use std::sync::atomic::{AtomicUsize, Ordering::SeqCst};
use support::Link;

/// What the functions below are handed: how many blocks they gave, and how many came back.
struct Blocks {
    taken: AtomicUsize,
    given_back: AtomicUsize,
}

static BLOCKS: Blocks = Blocks { taken: AtomicUsize::new(0), given_back: AtomicUsize::new(0) };

fn counts() -> (usize, usize) {
    (BLOCKS.taken.load(SeqCst), BLOCKS.given_back.load(SeqCst))
}

// A block has its size in the 16 bytes in front of it.
const HEAD: usize = 16;

fn layout(size: usize) -> Layout {
    Layout::from_size_align(size + HEAD, HEAD).expect("a size that the library asks for")
}

/// The block in what was taken for it.
unsafe fn block_in(whole: *mut u8, size: usize) -> *mut c_void {
    if whole.is_null() {
        return ptr::null_mut();
    }
    // SAFETY: it has HEAD bytes more than the block.
    unsafe {
        whole.cast::<usize>().write(size);
        whole.add(HEAD).cast()
    }
}

unsafe extern "C" fn allocate(user: *mut c_void, size: usize, align: usize) -> *mut c_void {
    assert!(size > 0 && align <= HEAD && align.is_power_of_two());
    // SAFETY: the library hands in what was set, and the layout's size is not 0.
    unsafe {
        (*user.cast::<Blocks>()).taken.fetch_add(1, SeqCst);
        block_in(alloc(layout(size)), size)
    }
}

unsafe extern "C" fn reallocate(
    user: *mut c_void,
    at: *mut c_void,
    kept: usize,
    size: usize,
    _align: usize,
) -> *mut c_void {
    assert!(size > 0 && ptr::eq(user.cast(), &BLOCKS));
    // SAFETY: the library hands in a block that it got here.
    unsafe {
        let whole = at.cast::<u8>().sub(HEAD);
        let before = whole.cast::<usize>().read();
        assert!(kept <= before);
        block_in(realloc(whole, layout(before), size + HEAD), size)
    }
}

unsafe extern "C" fn release(user: *mut c_void, at: *mut c_void) {
    // SAFETY: the library hands in what was set, and a block that it got here.
    unsafe {
        (*user.cast::<Blocks>()).given_back.fetch_add(1, SeqCst);
        let whole = at.cast::<u8>().sub(HEAD);
        dealloc(whole, layout(whole.cast::<usize>().read()));
    }
}

/// A handshake and a message of 65,536 bytes.
fn session() -> Result<(), Error> {
    let mut link = Link::established(&Config::default())?;
    let message = vec![7; 65536];
    link.ends[0].open_stream(1, PayloadType::Binary)?.write(&message)?;
    link.settle()?;
    assert_eq!(link.ends[1].stream(1).read_vec()?, Some((PayloadType::Binary, message)));
    Ok(())
}

#[test]
fn memory_comes_from_the_heap_that_is_set() -> Result<(), Error> {
    session()?;
    assert_eq!(counts(), (0, 0), "no heap is set");
    let user = ptr::addr_of!(BLOCKS).cast_mut().cast();
    let heap = sctp_assoc_heap { allocate: Some(allocate), reallocate: Some(reallocate), release: Some(release), user };
    // SAFETY: there is no association, here and below, and no other thread has one.
    assert_eq!(unsafe { sctp_assoc_set_heap(&heap) }, SCTP_ASSOC_DONE);
    session()?;
    let (taken, given_back) = counts();
    assert!(taken > 0 && taken == given_back);

    // SAFETY: as above.
    assert_eq!(unsafe { sctp_assoc_set_heap(ptr::null()) }, SCTP_ASSOC_DONE);
    session()?;
    assert_eq!(counts(), (taken, taken), "the heap is not set any more");
    Ok(())
}
