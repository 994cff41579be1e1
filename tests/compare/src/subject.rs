//! What is compared with the model and measured: with the feature `ffi` the
//! library behind the C interface, else the implementation in bench/fast.

use model::Relation;

#[cfg(feature = "ffi")]
mod calls {
    use super::*;

    pub const NAME: &str = "library";

    extern "C" {
        fn rdap_answer(
            path: *const u8,
            path_len: usize,
            image: *const u8,
            image_len: usize,
            list: *mut u32,
            list_len: usize,
            reply: *mut u32,
        );
        fn rdap_batch(
            paths: *const u8,
            paths_len: usize,
            image: *const u8,
            image_len: usize,
            list: *mut u32,
            list_len: usize,
            reply: *mut u32,
        );
        fn rdap_up(
            image: *const u8,
            image_len: usize,
            record: u32,
            list: *mut u32,
            list_len: usize,
            reply: *mut u32,
        );
        fn rdap_down(
            image: *const u8,
            image_len: usize,
            record: u32,
            list: *mut u32,
            list_len: usize,
            reply: *mut u32,
        );
        fn rdap_top(
            image: *const u8,
            image_len: usize,
            record: u32,
            list: *mut u32,
            list_len: usize,
            reply: *mut u32,
        );
        fn rdap_bottom(
            image: *const u8,
            image_len: usize,
            record: u32,
            list: *mut u32,
            list_len: usize,
            reply: *mut u32,
        );
        fn rdap_handle(image: *const u8, image_len: usize, record: u32, part: *mut u32);
        fn rdap_name(image: *const u8, image_len: usize, record: u32, part: *mut u32);
        fn rdap_range(image: *const u8, image_len: usize, record: u32, part: *mut u32);
        fn rdap_prefixes(
            range: *const u8,
            range_len: usize,
            out: *mut u8,
            out_len: usize,
            reply: *mut u32,
        );
        fn rdap_address_text(
            address: *const u8,
            address_len: usize,
            text: *mut u8,
            text_len: usize,
            reply: *mut u32,
        );
        fn rdap_fold(
            image: *const u8,
            image_len: usize,
            changes: *const u8,
            changes_len: usize,
            out: *mut u8,
            out_len: usize,
            reply: *mut u32,
        );
    }

    /// A function that takes a text, an image and a list.
    type OnText =
        unsafe extern "C" fn(*const u8, usize, *const u8, usize, *mut u32, usize, *mut u32);

    #[inline(always)]
    fn on_text(call: OnText, text: &[u8], image: &[u8], list: &mut [u32], reply: &mut [u32; 7]) {
        // The pointers and lengths are those of the slices.
        unsafe {
            call(
                text.as_ptr(),
                text.len(),
                image.as_ptr(),
                image.len(),
                list.as_mut_ptr(),
                list.len(),
                reply.as_mut_ptr(),
            )
        }
    }

    /// A function that takes a range or an address, and bytes to write to.
    type OnBytes = unsafe extern "C" fn(*const u8, usize, *mut u8, usize, *mut u32);

    #[inline(always)]
    fn on_bytes(call: OnBytes, input: &[u8], out: &mut [u8], reply: &mut [u32; 2]) {
        unsafe {
            call(
                input.as_ptr(),
                input.len(),
                out.as_mut_ptr(),
                out.len(),
                reply.as_mut_ptr(),
            )
        }
    }

    #[inline]
    pub fn answer(path: &[u8], image: &[u8], list: &mut [u32], reply: &mut [u32; 7]) {
        on_text(rdap_answer, path, image, list, reply);
    }

    #[inline]
    pub fn batch(paths: &[u8], image: &[u8], list: &mut [u32], reply: &mut [u32; 7]) {
        on_text(rdap_batch, paths, image, list, reply);
    }

    #[inline]
    pub fn relation(
        relation: Relation,
        image: &[u8],
        record: u32,
        list: &mut [u32],
        reply: &mut [u32; 7],
    ) {
        let call = match relation {
            Relation::Up => rdap_up,
            Relation::Down => rdap_down,
            Relation::Top => rdap_top,
            Relation::Bottom => rdap_bottom,
        };
        unsafe {
            call(
                image.as_ptr(),
                image.len(),
                record,
                list.as_mut_ptr(),
                list.len(),
                reply.as_mut_ptr(),
            )
        }
    }

    #[inline]
    pub fn handle(image: &[u8], record: u32, part: &mut [u32; 2]) {
        unsafe { rdap_handle(image.as_ptr(), image.len(), record, part.as_mut_ptr()) }
    }

    #[inline]
    pub fn name(image: &[u8], record: u32, part: &mut [u32; 2]) {
        unsafe { rdap_name(image.as_ptr(), image.len(), record, part.as_mut_ptr()) }
    }

    #[inline]
    pub fn range(image: &[u8], record: u32, part: &mut [u32; 2]) {
        unsafe { rdap_range(image.as_ptr(), image.len(), record, part.as_mut_ptr()) }
    }

    #[inline]
    pub fn prefixes(range: &[u8], out: &mut [u8], reply: &mut [u32; 2]) {
        on_bytes(rdap_prefixes, range, out, reply);
    }

    #[inline]
    pub fn address_text(address: &[u8], text: &mut [u8], reply: &mut [u32; 2]) {
        on_bytes(rdap_address_text, address, text, reply);
    }

    #[inline]
    pub fn fold(image: &[u8], changes: &[u8], out: &mut [u8], reply: &mut [u32; 5]) {
        unsafe {
            rdap_fold(
                image.as_ptr(),
                image.len(),
                changes.as_ptr(),
                changes.len(),
                out.as_mut_ptr(),
                out.len(),
                reply.as_mut_ptr(),
            )
        }
    }
}

#[cfg(not(feature = "ffi"))]
mod calls {
    use super::*;

    pub const NAME: &str = "bench/fast";

    #[inline]
    pub fn answer(path: &[u8], image: &[u8], list: &mut [u32], reply: &mut [u32; 7]) {
        *reply = fast::answer(path, image, list).numbers();
    }

    #[inline]
    pub fn batch(paths: &[u8], image: &[u8], list: &mut [u32], reply: &mut [u32; 7]) {
        *reply = fast::batch(paths, image, list).numbers();
    }

    #[inline]
    pub fn relation(
        relation: Relation,
        image: &[u8],
        record: u32,
        list: &mut [u32],
        reply: &mut [u32; 7],
    ) {
        *reply = fast::relation(image, record, relation, list).numbers();
    }

    #[inline]
    pub fn handle(image: &[u8], record: u32, part: &mut [u32; 2]) {
        *part = fast::handle_part(image, record).into();
    }

    #[inline]
    pub fn name(image: &[u8], record: u32, part: &mut [u32; 2]) {
        *part = fast::name_part(image, record).into();
    }

    #[inline]
    pub fn range(image: &[u8], record: u32, part: &mut [u32; 2]) {
        *part = fast::range_part(image, record).into();
    }

    #[inline]
    pub fn prefixes(range: &[u8], out: &mut [u8], reply: &mut [u32; 2]) {
        *reply = fast::prefixes(range, out).numbers();
    }

    #[inline]
    pub fn address_text(address: &[u8], text: &mut [u8], reply: &mut [u32; 2]) {
        *reply = fast::address_text(address, text).numbers();
    }

    #[inline]
    pub fn fold(image: &[u8], changes: &[u8], out: &mut [u8], reply: &mut [u32; 5]) {
        *reply = fast::fold(image, changes, out).numbers();
    }
}

pub use calls::{address_text, answer, batch, fold, handle, name, prefixes, range, relation, NAME};
