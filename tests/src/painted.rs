//! Work done on a stack of our own, filled with a pattern before, so that the deepest use can be
//! read off afterwards. (Linux, by mmap and pthread_attr_setstack.)
use std::ffi::c_void;
use std::os::raw::c_int;

extern "C" {
    fn mmap(at: *mut c_void, len: usize, prot: c_int, flags: c_int, fd: c_int, off: i64) -> *mut c_void;
    fn munmap(at: *mut c_void, len: usize) -> c_int;
    fn pthread_attr_init(attr: *mut [u64; 16]) -> c_int;
    fn pthread_attr_setstack(attr: *mut [u64; 16], at: *mut c_void, len: usize) -> c_int;
    fn pthread_attr_destroy(attr: *mut [u64; 16]) -> c_int;
    fn pthread_create(id: *mut usize, attr: *const [u64; 16], run: extern "C" fn(*mut c_void) -> *mut c_void, with: *mut c_void) -> c_int;
    fn pthread_join(id: usize, result: *mut *mut c_void) -> c_int;
}

const PAINT: u64 = 0xC0DE_FACE_0DDB_A115;

struct Job<'a> { work: Option<Box<dyn FnOnce() + Send + 'a>>, failed: bool }

extern "C" fn run(with: *mut c_void) -> *mut c_void {
    // SAFETY: the pointer is to the Job of `on_stack`, which waits for this thread to end.
    let job = unsafe { &mut *(with as *mut Job) };
    let work = job.work.take().unwrap();
    job.failed = std::panic::catch_unwind(std::panic::AssertUnwindSafe(work)).is_err();
    std::ptr::null_mut()
}

/// Runs `work` in a thread whose stack has `bytes` bytes and gives the most bytes that were in use.
pub fn on_stack<'a>(bytes: usize, work: impl FnOnce() + Send + 'a) -> usize {
    let mut job = Job { work: Some(Box::new(work)), failed: false };
    // SAFETY: plain calls of the C library; the mapping is ours, is as long as said, and outlives
    // the thread, which is joined before the mapping is read and given back. An unreadable page
    // below it turns an overflow into a fault.
    unsafe {
        let guard = 1 << 16;
        let map = mmap(std::ptr::null_mut(), bytes + guard, 0, 0x22, -1, 0);
        assert!(map as isize != -1, "mmap");
        let low = (map as *mut u8).add(guard);
        extern "C" { fn mprotect(at: *mut c_void, len: usize, prot: c_int) -> c_int; }
        assert_eq!(mprotect(low as *mut c_void, bytes, 3), 0);
        let words = std::slice::from_raw_parts_mut(low as *mut u64, bytes / 8);
        words.fill(PAINT);
        let mut attr = [0u64; 16];
        assert_eq!(pthread_attr_init(&mut attr), 0);
        assert_eq!(pthread_attr_setstack(&mut attr, low as *mut c_void, bytes), 0);
        let mut id = 0;
        assert_eq!(pthread_create(&mut id, &attr, run, &mut job as *mut Job as *mut c_void), 0);
        assert_eq!(pthread_join(id, std::ptr::null_mut()), 0);
        pthread_attr_destroy(&mut attr);
        let words = std::slice::from_raw_parts(low as *const u64, bytes / 8);
        let untouched = words.iter().take_while(|&&w| w == PAINT).count();
        munmap(map, bytes + guard);
        assert!(!job.failed, "the work on the painted stack failed");
        bytes - 8 * untouched
    }
}

/// Runs in an ordinary thread with a large stack; a failure there fails here.
pub fn with_large_stack(work: impl FnOnce() + Send + 'static) {
    let done = std::thread::Builder::new().stack_size(1 << 30).spawn(work).unwrap().join();
    if let Err(e) = done { std::panic::resume_unwind(e); }
}

/// Runs in an ordinary thread with a stack of 8 MiB, as a program's first thread has.
pub fn on_eight_mebibytes<T: Send>(work: impl FnOnce() -> T + Send) -> T {
    std::thread::scope(|scope| match std::thread::Builder::new().stack_size(8 << 20).spawn_scoped(scope, work).unwrap().join() {
        Ok(x) => x,
        Err(e) => std::panic::resume_unwind(e),
    })
}
