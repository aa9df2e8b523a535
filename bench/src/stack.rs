//! How deep a call goes: it runs on a stack that was filled before, and what it overwrote is looked for.

use std::ffi::c_void;
use std::hint::black_box;
use std::ptr;

use crate::plan::KIB;

/// A stack for a thread begins and ends at a page.
const PAGE: usize = 4 * KIB;
/// The call's frames are this much below those of the thread's start and end, which are then not met.
const APART: usize = 16 * KIB;
/// The lowest bytes, which a call must leave as they were. Where it does not, the stack was too small.
const MARGIN: usize = 16 * KIB;
/// A byte that a call leaves as it was by chance is not left so twice.
const FILLS: [u8; 2] = [0xA5, 0x5A];

/// `pthread_attr_t` of 64-bit Linux, which is not looked into.
#[repr(C, align(8))]
struct Attributes([u8; 64]);

type Start = extern "C" fn(*mut c_void) -> *mut c_void;

unsafe extern "C" {
    fn pthread_attr_init(attributes: *mut Attributes) -> i32;
    fn pthread_attr_setstack(attributes: *mut Attributes, lowest: *mut c_void, size: usize) -> i32;
    fn pthread_attr_destroy(attributes: *mut Attributes) -> i32;
    fn pthread_create(thread: *mut usize, attributes: *const Attributes, start: Start, argument: *mut c_void) -> i32;
    fn pthread_join(thread: usize, result: *mut *mut c_void) -> i32;
}

#[derive(Clone, Copy)]
#[repr(align(4096))]
struct Page([u8; PAGE]);

/// Memory that calls run on.
pub struct Stack {
    pages: Vec<Page>,
}

impl Stack {
    pub fn new(size: usize) -> Self {
        Self { pages: vec![Page([0; PAGE]); (MARGIN + size + APART).div_ceil(PAGE)] }
    }

    /// The bytes from the stack's top to the deepest one that the call wrote.
    pub fn depth(&mut self, call: &mut dyn FnMut()) -> Result<usize, String> {
        let mut deepest = 0;
        for fill in FILLS {
            self.pages.fill(Page([fill; PAGE]));
            self.run(call)?;
            deepest = deepest.max(self.overwritten(fill)?);
        }
        Ok(deepest)
    }

    fn run(&mut self, mut call: &mut dyn FnMut()) -> Result<(), String> {
        let (lowest, size) = (self.pages.as_mut_ptr().cast(), self.pages.len() * PAGE);
        let argument = (&raw mut call).cast();
        let mut attributes = Attributes([0; 64]);
        let mut thread = 0;
        // SAFETY: the attributes are initialised before they are used, the stack is memory of ours that nobody else uses, and the
        // thread has ended when the call and the stack are used again.
        let failed = unsafe {
            let mut failed = pthread_attr_init(&raw mut attributes);
            if failed == 0 {
                failed = pthread_attr_setstack(&raw mut attributes, lowest, size);
            }
            if failed == 0 {
                failed = pthread_create(&raw mut thread, &raw const attributes, start, argument);
            }
            if failed == 0 {
                failed = pthread_join(thread, ptr::null_mut());
            }
            pthread_attr_destroy(&raw mut attributes);
            failed
        };
        if failed == 0 { Ok(()) } else { Err(format!("no thread on a stack of ours: error {failed}")) }
    }
    /// The bytes from the top to the lowest that is not as it was filled.
    fn overwritten(&self, fill: u8) -> Result<usize, String> {
        let page = self.pages.iter().position(|page| page.0 != [fill; PAGE]);
        let Some(page) = page.filter(|&page| page >= MARGIN / PAGE) else {
            return Err("a stack of ours is too small, or was not used".to_owned());
        };
        let untouched = self.pages[page].0.iter().take_while(|&&byte| byte == fill).count();
        Ok((self.pages.len() - page) * PAGE - untouched)
    }
}

/// Where the thread begins. Its argument is the place of the call, from `run`.
extern "C" fn start(argument: *mut c_void) -> *mut c_void {
    // SAFETY: `run` hands on a place that lives until the thread has ended, and does not look at it before.
    let call = unsafe { &mut *argument.cast::<&mut dyn FnMut()>() };
    let mut apart = [0; APART];
    black_box::<&mut [u8]>(&mut apart);
    call();
    black_box::<&mut [u8]>(&mut apart);
    ptr::null_mut()
}

#[cfg(test)]
mod tests {
    use super::*;

    /// Writes a frame of its own of so many bytes.
    fn deep<const BYTES: usize>() {
        let mut frame = [0u8; BYTES];
        black_box::<&mut [u8]>(&mut frame);
    }

    fn depth(call: fn()) -> usize {
        let call = black_box(call);
        Stack::new(64 * KIB).depth(&mut || call()).unwrap()
    }

    #[test]
    fn a_frame_of_some_bytes_is_as_deep() {
        let (least, most) = (depth(deep::<8>), depth(deep::<30_008>));
        assert!((30_000..30_064).contains(&(most - least)), "{least} {most}");
    }

    #[test]
    fn a_stack_that_is_too_small_is_an_error() {
        let call = black_box(deep::<{ 26 * KIB }> as fn());
        assert!(Stack::new(24 * KIB).depth(&mut || call()).is_err());
    }
}
