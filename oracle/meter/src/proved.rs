//! The proved host, linked in: `crates/meter`.

use oracle_bench_book::book::numbers;
use oracle_driver::{Call, Settings};

/// A list of calls, each slice as its pointer and its length.
type Serve = unsafe extern "C" fn(*const u32, usize, *mut u64, usize, *mut u8, usize) -> u64;

extern "C" {
    fn boresacu_meter_calls(
        words: *const u32,
        words_len: usize,
        rows: *mut u64,
        rows_len: usize,
        buffer: *mut u8,
        buffer_len: usize,
    ) -> u64;
    fn boresacu_meter_steps(
        words: *const u32,
        words_len: usize,
        rows: *mut u64,
        rows_len: usize,
        buffer: *mut u8,
        buffer_len: usize,
    ) -> u64;
    fn boresacu_meter_book(bytes: *const u8, bytes_len: usize, out: *mut u8, out_len: usize) -> usize;
}

/// What the last call of a list came to.
#[derive(Clone, Copy, Debug, Eq, PartialEq)]
pub struct Told {
    pub answer: u8,
    pub rows: usize,
    pub words: usize,
}

/// Makes the host of a list and serves its calls, in this row list and buffer; a read fills all of the buffer, a
/// write sends it.
pub fn calls(list: &[u32], rows: &mut [u64], buffer: &mut [u8]) -> Told {
    served(boresacu_meter_calls, list, rows, buffer)
}

/// The same, one answer at a time.
pub fn steps(list: &[u32], rows: &mut [u64], buffer: &mut [u8]) -> Told {
    served(boresacu_meter_steps, list, rows, buffer)
}

#[inline(always)]
fn served(serve: Serve, list: &[u32], rows: &mut [u64], buffer: &mut [u8]) -> Told {
    // SAFETY: each pointer comes with its length, and the last two slices are lent for the call alone.
    let told = unsafe {
        serve(
            list.as_ptr(),
            list.len(),
            rows.as_mut_ptr(),
            rows.len(),
            buffer.as_mut_ptr(),
            buffer.len(),
        )
    };
    Told {
        answer: (told >> 56) as u8,
        rows: (told >> 32 & 0xff_ffff) as usize,
        words: (told & 0xffff_ffff) as usize,
    }
}

/// What is printed of a file's bytes as a book: the part of `out` that it fills.
pub fn book<'a>(bytes: &[u8], out: &'a mut [u8]) -> &'a [u8] {
    // SAFETY: as above.
    let length = unsafe { boresacu_meter_book(bytes.as_ptr(), bytes.len(), out.as_mut_ptr(), out.len()) };
    &out[..length]
}

/// Words laid out as a book's, however many. A write has no data words here: it sends the buffer as the caller has filled it.
pub fn list(settings: &Settings, calls: &[(Call<'_>, &[u32])]) -> Vec<u32> {
    let mut words = vec![
        settings.source,
        settings.poll_limit,
        u32::from(settings.ready_attempts),
        settings.data_timeout,
        settings.software_timeout,
        u32::from(settings.bypass) + 2 * u32::from(settings.wide),
        calls.len() as u32,
    ];
    for (call, script) in calls {
        let [kind, a, b] = numbers(*call);
        let b = match call {
            Call::Write { .. } => 0,
            _ => b,
        };
        words.extend([kind, a, b, script.len() as u32]);
    }
    for (_, script) in calls {
        words.extend_from_slice(script);
    }
    words
}
