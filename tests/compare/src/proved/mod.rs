//! The proved library's calls, as crate `test_calls` exports them, and those for C.

pub mod c;

extern "C" {
    fn test_merge(
        modes: usize,
        rule: usize,
        terms: *const u16,
        numbers: usize,
        rows: *mut u16,
        rows_room: usize,
        x: u16,
        y: u16,
        z: u16,
        parent: u16,
        answer: *mut u64,
        answer_room: usize,
    );
    fn test_resume(
        modes: usize,
        rule: usize,
        terms: *const u16,
        numbers: usize,
        read: *const u8,
        bytes: usize,
        work: *mut u16,
        work_room: usize,
        rows: *mut u16,
        rows_room: usize,
        journal: *mut u8,
        journal_room: usize,
        answer: *mut u64,
        answer_room: usize,
        drops: *mut u16,
        drops_room: usize,
    );
    fn test_assign(
        modes: usize,
        rule: usize,
        tree: *const u16,
        codes: usize,
        heuristic: usize,
        terms: *const u16,
        numbers: usize,
        work: *mut u16,
        work_room: usize,
        table: *mut u16,
        table_room: usize,
        answer: *mut u64,
        answer_room: usize,
    );
    fn test_check_tree(
        modes: usize,
        tree: *const u16,
        codes: usize,
        answer: *mut u64,
        answer_room: usize,
    );
    fn test_tree_weight(
        modes: usize,
        tree: *const u16,
        codes: usize,
        terms: *const u16,
        numbers: usize,
        answer: *mut u64,
        answer_room: usize,
    );
    fn test_best(
        modes: usize,
        terms: *const u16,
        numbers: usize,
        sequence: *mut u16,
        sequence_room: usize,
        answer: *mut u64,
        answer_room: usize,
    );
    fn test_write_newick(
        modes: usize,
        tree: *const u16,
        codes: usize,
        text: *mut u8,
        text_room: usize,
        answer: *mut u64,
        answer_room: usize,
    );
    fn test_write_strings(
        modes: usize,
        tree: *const u16,
        codes: usize,
        text: *mut u8,
        text_room: usize,
        answer: *mut u64,
        answer_room: usize,
    );
    fn test_read_newick(
        text: *const u8,
        bytes: usize,
        table: *mut u16,
        table_room: usize,
        answer: *mut u64,
        answer_room: usize,
    );
}

/// Puts the terms as work rows over the lent rows, weighs the triple in them, reduces them to its parent, and returns three numbers: the refusal of the terms, the weight, and how many terms were dropped.
pub fn merge(
    modes: usize,
    rule: usize,
    terms: &[u16],
    rows: &mut [u16],
    triple: [u16; 3],
    parent: u16,
) -> [u64; 3] {
    let mut answer = [u64::MAX; 3];
    let [x, y, z] = triple;
    // The library reads the terms, and writes the rows and the three numbers within their lengths.
    unsafe {
        test_merge(
            modes,
            rule,
            terms.as_ptr(),
            terms.len(),
            rows.as_mut_ptr(),
            rows.len(),
            x,
            y,
            z,
            parent,
            answer.as_mut_ptr(),
            answer.len(),
        );
    }
    answer
}

/// Resumes in the lent slices and returns six numbers: refusal, place, weight, trials, kept and new bytes.
pub fn resume(
    modes: usize,
    rule: usize,
    terms: &[u16],
    read: &[u8],
    work: &mut [u16],
    rows: &mut [u16],
    journal: &mut [u8],
    drops: &mut [u16],
) -> [u64; 6] {
    let mut answer = [u64::MAX; 6];
    // The library reads terms and journal, and writes the five slices within their lengths.
    unsafe {
        test_resume(
            modes,
            rule,
            terms.as_ptr(),
            terms.len(),
            read.as_ptr(),
            read.len(),
            work.as_mut_ptr(),
            work.len(),
            rows.as_mut_ptr(),
            rows.len(),
            journal.as_mut_ptr(),
            journal.len(),
            answer.as_mut_ptr(),
            answer.len(),
            drops.as_mut_ptr(),
            drops.len(),
        );
    }
    answer
}

/// Assigns in the lent slices and returns three numbers: refusal, place, weight.
pub fn assign(
    modes: usize,
    rule: usize,
    tree: &[u16],
    heuristic: usize,
    terms: &[u16],
    work: &mut [u16],
    table: &mut [u16],
) -> [u64; 3] {
    let mut answer = [u64::MAX; 3];
    // The library reads tree and terms, and writes the three slices within their lengths.
    unsafe {
        test_assign(
            modes,
            rule,
            tree.as_ptr(),
            tree.len(),
            heuristic,
            terms.as_ptr(),
            terms.len(),
            work.as_mut_ptr(),
            work.len(),
            table.as_mut_ptr(),
            table.len(),
            answer.as_mut_ptr(),
            answer.len(),
        );
    }
    answer
}

/// Checks the tree and returns three numbers: refusal, place, zero.
pub fn check_tree(modes: usize, tree: &[u16]) -> [u64; 3] {
    // Numbers that no call answers, so that one that was not written shows.
    let mut answer = [u64::MAX; 3];
    // The library reads the tree and writes the three numbers.
    unsafe {
        test_check_tree(
            modes,
            tree.as_ptr(),
            tree.len(),
            answer.as_mut_ptr(),
            answer.len(),
        );
    }
    answer
}

/// Weighs the terms in the tree and returns three numbers: refusal, place, weight.
pub fn tree_weight(modes: usize, tree: &[u16], terms: &[u16]) -> [u64; 3] {
    let mut answer = [u64::MAX; 3];
    // The library reads tree and terms and writes the three numbers.
    unsafe {
        test_tree_weight(
            modes,
            tree.as_ptr(),
            tree.len(),
            terms.as_ptr(),
            terms.len(),
            answer.as_mut_ptr(),
            answer.len(),
        );
    }
    answer
}

/// Finds the best of all sequences, the first of them into the lent numbers, and returns four numbers: refusal, place, least weight, how many reach it.
pub fn best(modes: usize, terms: &[u16], sequence: &mut [u16]) -> [u64; 4] {
    let mut answer = [u64::MAX; 4];
    // The library reads the terms, and writes the two slices within their lengths.
    unsafe {
        test_best(
            modes,
            terms.as_ptr(),
            terms.len(),
            sequence.as_mut_ptr(),
            sequence.len(),
            answer.as_mut_ptr(),
            answer.len(),
        );
    }
    answer
}

/// Writes the tree as Newick text into the lent text and returns three numbers: refusal, place, bytes written.
pub fn write_newick(modes: usize, tree: &[u16], text: &mut [u8]) -> [u64; 3] {
    write_tree(test_write_newick, modes, tree, text)
}

/// Writes the tree's strings likewise.
pub fn write_strings(modes: usize, tree: &[u16], text: &mut [u8]) -> [u64; 3] {
    write_tree(test_write_strings, modes, tree, text)
}

type Writer = unsafe extern "C" fn(usize, *const u16, usize, *mut u8, usize, *mut u64, usize);

fn write_tree(writer: Writer, modes: usize, tree: &[u16], text: &mut [u8]) -> [u64; 3] {
    let mut answer = [u64::MAX; 3];
    // The library reads the tree, and writes the two slices within their lengths.
    unsafe {
        writer(
            modes,
            tree.as_ptr(),
            tree.len(),
            text.as_mut_ptr(),
            text.len(),
            answer.as_mut_ptr(),
            answer.len(),
        );
    }
    answer
}

/// Reads the text into the lent table and returns three numbers: refusal, place, modes read.
pub fn read_newick(text: &[u8], table: &mut [u16]) -> [u64; 3] {
    let mut answer = [u64::MAX; 3];
    // The library reads the text, and writes the two slices within their lengths.
    unsafe {
        test_read_newick(
            text.as_ptr(),
            text.len(),
            table.as_mut_ptr(),
            table.len(),
            answer.as_mut_ptr(),
            answer.len(),
        );
    }
    answer
}
