//! The three calls of the proved library, answered as it answers them (`include/jorulbani.h`): linked where the host is x86-64, by the
//! bridge program elsewhere. All `unsafe` of this crate is here.

pub use way::{analyse, direct, list, ready};

#[cfg(target_arch = "x86_64")]
mod way {
    use std::io;

    extern "C" {
        fn jorulbani_analyse(file: *const u8, file_len: usize, out: *mut u8, out_len: usize)
            -> u64;
        fn jorulbani_direct(
            file: *const u8,
            file_len: usize,
            setting: *const u8,
            setting_len: usize,
            out: *mut u8,
            out_len: usize,
        ) -> u64;
        fn jorulbani_list(file: *const u8, file_len: usize, out: *mut u8, out_len: usize) -> u64;
    }

    pub fn ready() -> io::Result<()> {
        Ok(())
    }

    pub fn analyse(file: &[u8], out: &mut [u8]) -> u64 {
        // SAFETY: each pointer is that of a slice, so it is not null and good for its length, `out` for writing too; `out` is borrowed
        // alone, so it overlaps nothing; the function keeps no pointer and asks for nothing else.
        unsafe { jorulbani_analyse(file.as_ptr(), file.len(), out.as_mut_ptr(), out.len()) }
    }

    pub fn direct(file: &[u8], setting: &[u8], out: &mut [u8]) -> u64 {
        // SAFETY: as in `analyse`; `setting` is a slice too.
        unsafe {
            jorulbani_direct(
                file.as_ptr(),
                file.len(),
                setting.as_ptr(),
                setting.len(),
                out.as_mut_ptr(),
                out.len(),
            )
        }
    }

    pub fn list(file: &[u8], out: &mut [u8]) -> u64 {
        // SAFETY: as in `analyse`.
        unsafe { jorulbani_list(file.as_ptr(), file.len(), out.as_mut_ptr(), out.len()) }
    }

    /// The C names called as C calls them, with NULL for every buffer of length 0. Where calls go through the bridge, it does the same.
    #[cfg(test)]
    mod tests {
        use super::{jorulbani_analyse, jorulbani_direct, jorulbani_list};
        use std::ptr::{null, null_mut};

        /// A refusal as it is answered: its number above its place.
        const fn refused(number: u64, place: u64) -> u64 {
            number << 32 | place
        }

        /// No variables, no given formulas, no vertices, no switches.
        const EMPTY: [u8; 8] = [0; 8];

        #[test]
        fn nothing_is_lent_as_null() {
            let (file, len) = (EMPTY.as_ptr(), EMPTY.len());
            // SAFETY: every pointer is null with length 0, or that of an array with its length, which is only read.
            unsafe {
                let cut = refused(1, 0);
                assert_eq!(jorulbani_analyse(null(), 0, null_mut(), 0), cut);
                assert_eq!(jorulbani_direct(null(), 0, null(), 0, null_mut(), 0), cut);
                assert_eq!(jorulbani_list(null(), 0, null_mut(), 0), 0);
                assert_eq!(jorulbani_analyse(file, len, null_mut(), 0), refused(9, 0));
                assert_eq!(jorulbani_direct(file, len, null(), 0, null_mut(), 0), 0);
                assert_eq!(jorulbani_list(file, len, null_mut(), 0), 0);
            }
        }

        #[test]
        fn a_result_is_written_beside_nulls() {
            let mut out = [0xee; 20];
            let mut text = vec![0xee; 262_144];
            // SAFETY: as above; the buffers are lent alone, to be written.
            unsafe {
                let (to, room) = (out.as_mut_ptr(), out.len());
                assert_eq!(jorulbani_analyse(EMPTY.as_ptr(), 8, to, room), 16);
                assert_eq!(jorulbani_direct(EMPTY.as_ptr(), 8, null(), 0, to, room), 0);
                assert_eq!(jorulbani_list(null(), 0, text.as_mut_ptr(), text.len()), 15);
            }
            assert_eq!(out[..8], [0; 8]);
            assert_eq!(out[8..], [3, 0, 0, 0, 0, 0, 0, 0, 0xee, 0xee, 0xee, 0xee]);
            assert_eq!(&text[..15], b"refused 1 at 0\n");
        }
    }
}

#[cfg(not(target_arch = "x86_64"))]
mod way {
    pub use crate::bridge::ready;
    use crate::bridge::{call, Call};

    pub fn analyse(file: &[u8], out: &mut [u8]) -> u64 {
        call(Call::Analyse, file, out)
    }

    pub fn direct(file: &[u8], setting: &[u8], out: &mut [u8]) -> u64 {
        call(Call::Direct { setting }, file, out)
    }

    pub fn list(file: &[u8], out: &mut [u8]) -> u64 {
        call(Call::List, file, out)
    }
}
