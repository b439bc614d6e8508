//! The calls for C, `dewgoblin_resume` and `dewgoblin_assign`, on bytes.

extern "C" {
    fn dewgoblin_resume(
        modes: u64,
        terms: *const u8,
        terms_bytes: usize,
        read: *const u8,
        read_bytes: usize,
        rows: *mut u8,
        rows_bytes: usize,
        journal: *mut u8,
        journal_bytes: usize,
        answer: *mut u8,
        answer_bytes: usize,
    ) -> u64;
    fn dewgoblin_assign(
        modes: u64,
        tree: *const u8,
        tree_bytes: usize,
        heuristic: u64,
        terms: *const u8,
        terms_bytes: usize,
        table: *mut u8,
        table_bytes: usize,
        answer: *mut u8,
        answer_bytes: usize,
    ) -> u64;
}

/// Two bytes a number, the low byte first.
pub fn two_bytes(numbers: &[u16]) -> Vec<u8> {
    numbers
        .iter()
        .flat_map(|number| number.to_le_bytes())
        .collect()
}

/// Resumes in the lent bytes and returns the one number.
pub fn resume(
    modes: usize,
    terms: &[u16],
    read: &[u8],
    rows: &mut [u8],
    journal: &mut [u8],
    answer: &mut [u8],
) -> u64 {
    let terms = two_bytes(terms);
    // The library reads terms and journal, and writes the three slices within their lengths.
    unsafe {
        dewgoblin_resume(
            modes as u64,
            terms.as_ptr(),
            terms.len(),
            read.as_ptr(),
            read.len(),
            rows.as_mut_ptr(),
            rows.len(),
            journal.as_mut_ptr(),
            journal.len(),
            answer.as_mut_ptr(),
            answer.len(),
        )
    }
}

/// Assigns in the lent bytes and returns the one number.
pub fn assign(
    modes: usize,
    tree: &[u16],
    heuristic: usize,
    terms: &[u16],
    table: &mut [u8],
    answer: &mut [u8],
) -> u64 {
    let (tree, terms) = (two_bytes(tree), two_bytes(terms));
    // The library reads tree and terms, and writes the two slices within their lengths.
    unsafe {
        dewgoblin_assign(
            modes as u64,
            tree.as_ptr(),
            tree.len(),
            heuristic as u64,
            terms.as_ptr(),
            terms.len(),
            table.as_mut_ptr(),
            table.len(),
            answer.as_mut_ptr(),
            answer.len(),
        )
    }
}
