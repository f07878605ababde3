//! A query over rooms, inside a Rust program: rustc hot_rooms.rs -l bq && ./hot_rooms
use std::ffi::c_void;
use std::ptr::null_mut;

extern "C" {
    fn bq_abi() -> u32;
    fn bq_open(session: *mut *mut c_void, rows: u64, pages: u32, most: usize) -> u32;
    fn bq_feed(session: *mut *mut c_void, text: *const u8, size: usize, taken: *mut usize, waiting: *mut usize) -> u32;
    fn bq_replies(session: *mut *mut c_void, room: *mut u8, size: usize, waiting: *mut usize) -> u32;
    fn bq_clear(session: *mut *mut c_void) -> u32;
    fn bq_close(session: *mut *mut c_void);
}

const ABI: u32 = 2;
const DONE: u32 = 0;
const FULL: u32 = 8;

/// A session. It may go to another thread, and is used by one at a time, which `&mut` sees to.
pub struct Session(*mut c_void);

unsafe impl Send for Session {}

impl Session {
    /// Opens a session that may take so many rows, and whose queries have at most so many pages together, or gives the status.
    pub fn open(rows: u64, pages: u32) -> Result<Session, u32> {
        let mut session = Session(null_mut());
        match unsafe { bq_open(&mut session.0, rows, pages, 1 << 20) } {
            DONE => Ok(session),
            status => Err(status),
        }
    }

    /// Answers whole lines, and returns the replies, or the status.
    pub fn feed(&mut self, mut text: &[u8]) -> Result<Vec<u8>, u32> {
        let (mut replies, mut taken, mut waiting) = (Vec::new(), 0, 0);
        loop {
            let status = unsafe { bq_feed(&mut self.0, text.as_ptr(), text.len(), &mut taken, &mut waiting) };
            text = &text[taken..];
            let old = replies.len();
            replies.resize(old + waiting, 0);
            unsafe {
                bq_replies(&mut self.0, replies[old..].as_mut_ptr(), waiting, &mut waiting);
                bq_clear(&mut self.0);
            }
            match status {
                FULL => {}
                DONE => return Ok(replies),
                _ => return Err(status),
            }
        }
    }
}

impl Drop for Session {
    fn drop(&mut self) {
        unsafe { bq_close(&mut self.0) }
    }
}

fn main() -> Result<(), u32> {
    assert_eq!(unsafe { bq_abi() }, ABI);
    let mut session = Session::open(1_000_000, 64)?;
    let script = b"CREATE STREAM Temp (room IN 1..39, val)\n\
                   CREATE QUERY hot AS SELECT DISTINCT Temp.room FROM Temp WHERE Temp.val > 30\n";
    print!("{}", String::from_utf8_lossy(&session.feed(script)?));
    for room in 1..=3 {
        let row = format!("Temp,{room},{}\n", 28 + room);
        print!("{}", String::from_utf8_lossy(&session.feed(row.as_bytes())?));
    }
    Ok(())
}
