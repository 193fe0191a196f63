//! What the timers and the fuzzer share: the archive's calls for texts and for checks of reasons, a
//! quick reader and the independent check to hold them against, and how calls are timed.

pub mod quick;
pub mod timing;
pub mod told;

/// The numbers of terms that are timed.
pub const SIZES: [usize; 4] = [16, 32, 64, second::sheet::MOST];

#[cfg(feature = "panel")]
pub use archive::{survey, transcribe};

#[cfg(feature = "panel")]
mod archive {
    // for the archive that it links
    use baruvkesh as _;

    extern "C" {
        fn baruvkesh_transcribe(
            text: *const u8,
            text_len: usize,
            room: *mut u8,
            room_len: usize,
        ) -> u64;
        fn baruvkesh_survey(
            sheet: *const u8,
            sheet_len: usize,
            list: *const u8,
            list_len: usize,
            steps: *const u8,
            steps_len: usize,
        ) -> u64;
    }

    /// The proved reader: the number and the place of its answer, and the sheet in the room.
    pub fn transcribe(text: &[u8], room: &mut [u8]) -> (u8, u32) {
        // SAFETY: the function has no precondition but two slices that don't overlap, and these are.
        let answer = unsafe {
            baruvkesh_transcribe(text.as_ptr(), text.len(), room.as_mut_ptr(), room.len())
        };
        halves(answer)
    }

    /// The proved check of reasons: the number and the place of its answer.
    pub fn survey(sheet: &[u8], list: &[u8], steps: &[u8]) -> (u8, u32) {
        // SAFETY: the function has no precondition but three slices, which it only reads, and these are.
        let answer = unsafe {
            baruvkesh_survey(
                sheet.as_ptr(),
                sheet.len(),
                list.as_ptr(),
                list.len(),
                steps.as_ptr(),
                steps.len(),
            )
        };
        halves(answer)
    }

    fn halves(answer: u64) -> (u8, u32) {
        // a number of more than a byte mustn't pass for another
        let number = u8::try_from(answer >> 32).expect("the contract has no such number");
        (number, answer as u32)
    }
}
