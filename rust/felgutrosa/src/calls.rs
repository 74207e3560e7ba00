//! The functions of the static library, each with its answer as it comes, most of them packed. A
//! slice goes over as its pointer and its length.
mod library {
    unsafe extern "C" {
        pub fn felgutrosa_join_chunks(
            chunks: *const u8,
            chunks_length: usize,
            options: *const u8,
            options_length: usize,
            text: *mut u8,
            text_length: usize,
        ) -> u64;

        pub fn felgutrosa_format(
            tree: *const u8,
            tree_length: usize,
            options: *const u8,
            options_length: usize,
            work: *mut u8,
            work_length: usize,
            text: *mut u8,
            text_length: usize,
        ) -> u64;

        pub fn felgutrosa_chunks(
            tree: *const u8,
            tree_length: usize,
            options: *const u8,
            options_length: usize,
            room: *mut u8,
            room_length: usize,
        ) -> u64;

        pub fn felgutrosa_check_tree(tree: *const u8, tree_length: usize) -> u64;

        pub fn felgutrosa_lost(tree: *const u8, tree_length: usize, from: usize) -> u64;

        pub fn felgutrosa_has_ink(line: *const u8, line_length: usize) -> bool;
    }
}

// Safety of all six: they ask nothing of the bytes, are proved to stay inside the slices, and keep
// no pointer. That slices lent for writing overlap with no other is what `&mut` says.

pub fn join_chunks(chunks: &[u8], options: &[u8], text: &mut [u8]) -> u64 {
    unsafe {
        library::felgutrosa_join_chunks(
            chunks.as_ptr(),
            chunks.len(),
            options.as_ptr(),
            options.len(),
            text.as_mut_ptr(),
            text.len(),
        )
    }
}

pub fn format(tree: &[u8], options: &[u8], work: &mut [u8], text: &mut [u8]) -> u64 {
    unsafe {
        library::felgutrosa_format(
            tree.as_ptr(),
            tree.len(),
            options.as_ptr(),
            options.len(),
            work.as_mut_ptr(),
            work.len(),
            text.as_mut_ptr(),
            text.len(),
        )
    }
}

pub fn chunks(tree: &[u8], options: &[u8], room: &mut [u8]) -> u64 {
    unsafe {
        library::felgutrosa_chunks(
            tree.as_ptr(),
            tree.len(),
            options.as_ptr(),
            options.len(),
            room.as_mut_ptr(),
            room.len(),
        )
    }
}

pub fn check_tree(tree: &[u8]) -> u64 {
    unsafe { library::felgutrosa_check_tree(tree.as_ptr(), tree.len()) }
}

pub fn lost(tree: &[u8], from: usize) -> u64 {
    unsafe { library::felgutrosa_lost(tree.as_ptr(), tree.len(), from) }
}

pub fn has_ink(line: &[u8]) -> bool {
    unsafe { library::felgutrosa_has_ink(line.as_ptr(), line.len()) }
}
