//! How much stack a call needs: it runs in a thread on a stack that was painted before, and the deepest byte without
//! paint tells how far down it went.

use std::ffi::{c_int, c_ulong, c_void};
use std::ptr::null_mut;

const PAGE: usize = 4096;
const PAGES: usize = 256;
const PAINT: u8 = 0xA5;

#[derive(Clone)]
#[repr(align(4096))]
struct Page([u8; PAGE]);

/// At least as long as the C library's, 56 bytes.
#[repr(C)]
struct Attributes([u64; 16]);

extern "C" {
    fn pthread_attr_init(attributes: *mut Attributes) -> c_int;
    fn pthread_attr_setstack(attributes: *mut Attributes, low: *mut c_void, size: usize) -> c_int;
    fn pthread_attr_destroy(attributes: *mut Attributes) -> c_int;
    fn pthread_create(
        thread: *mut c_ulong,
        attributes: *const Attributes,
        start: extern "C" fn(*mut c_void) -> *mut c_void,
        given: *mut c_void,
    ) -> c_int;
    fn pthread_join(thread: c_ulong, answer: *mut *mut c_void) -> c_int;
}

/// What the thread runs, and where its own frame stood.
struct Job<F> {
    run: Option<F>,
    frame: usize,
}

extern "C" fn start<F: FnOnce()>(given: *mut c_void) -> *mut c_void {
    // SAFETY: `Stack::depth_of` passes its job and looks at it again after the thread has ended.
    let job = unsafe { &mut *given.cast::<Job<F>>() };
    let frame = 0u8;
    job.frame = std::ptr::from_ref(std::hint::black_box(&frame)) as usize;
    if let Some(run) = job.run.take() {
        run();
    }
    null_mut()
}

/// A stack that threads run on, one after the other; painted while none does.
pub struct Stack {
    pages: Vec<Page>,
}

impl Default for Stack {
    fn default() -> Stack {
        let pages = vec![Page([PAINT; PAGE]); PAGES];
        Stack { pages }
    }
}

impl Stack {
    /// How many bytes below its caller's frame `run` reaches, what it calls included.
    pub fn depth_of<F: FnOnce() + Send>(&mut self, run: F) -> usize {
        let mut job = Job {
            run: Some(run),
            frame: 0,
        };
        self.run_thread(start::<F>, std::ptr::from_mut(&mut job).cast());
        let low = self.pages.as_ptr() as usize;
        let deepest = self.untouched();
        assert!(deepest > PAGE, "the stack is too short to measure it");
        self.repaint(deepest);
        (job.frame - low).saturating_sub(deepest)
    }

    fn run_thread(&mut self, start: extern "C" fn(*mut c_void) -> *mut c_void, job: *mut c_void) {
        let mut attributes = Attributes([0; 16]);
        let mut thread = 0;
        let low = self.pages.as_mut_ptr().cast();
        // SAFETY: the pages are this stack's alone and outlive the thread, which is waited for; the job lives as long.
        let answers = unsafe {
            [
                pthread_attr_init(&mut attributes),
                pthread_attr_setstack(&mut attributes, low, PAGES * PAGE),
                pthread_create(&mut thread, &attributes, start, job),
                pthread_join(thread, null_mut()),
                pthread_attr_destroy(&mut attributes),
            ]
        };
        assert_eq!(answers, [0; 5], "the thread could not be run");
    }

    /// How many bytes from the low end on have their paint.
    fn untouched(&self) -> usize {
        let mut pages = self.pages.iter().enumerate();
        let touched = pages.find(|(_, page)| page.0 != [PAINT; PAGE]);
        touched.map_or(PAGES * PAGE, |(number, page)| {
            let kept = page.0.iter().take_while(|byte| **byte == PAINT);
            number * PAGE + kept.count()
        })
    }

    fn repaint(&mut self, from: usize) {
        for page in &mut self.pages[from / PAGE..] {
            page.0.fill(PAINT);
        }
    }
}
