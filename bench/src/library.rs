//! The proved library behind its C functions (../include/lemitsaka.h).

extern "C" {
    fn lemitsaka_between(query: *const u8, query_len: usize, report: *mut u8, report_len: usize) -> u64;
    fn lemitsaka_verdict(
        order: *const u8,
        order_len: usize,
        query: *const u8,
        query_len: usize,
        report: *mut u8,
        report_len: usize,
    ) -> u64;
    fn lemitsaka_derivation(
        order: *const u8,
        order_len: usize,
        query: *const u8,
        query_len: usize,
        buffer: *mut u8,
        buffer_len: usize,
    ) -> u64;
    fn lemitsaka_links_verdict(
        order: *const u8,
        order_len: usize,
        query: *const u8,
        query_len: usize,
        report: *mut u8,
        report_len: usize,
    ) -> u64;
    fn lemitsaka_links_derivation(
        order: *const u8,
        order_len: usize,
        query: *const u8,
        query_len: usize,
        buffer: *mut u8,
        buffer_len: usize,
    ) -> u64;
    fn lemitsaka_links_rewrite(query: *const u8, query_len: usize, links_query: *mut u8, links_query_len: usize)
        -> u64;
    fn lemitsaka_check(query: *const u8, query_len: usize, derivation: *const u8, derivation_len: usize) -> u64;
}

pub fn check(query: &[u8], derivation: &[u8]) -> u64 {
    // Sound: two live slices.
    unsafe { lemitsaka_check(query.as_ptr(), query.len(), derivation.as_ptr(), derivation.len()) }
}

pub fn verdict(order: &[u8], query: &[u8], report: &mut [u8]) -> u64 {
    // Sound: three live slices, the last one lent to this call alone.
    unsafe {
        lemitsaka_verdict(order.as_ptr(), order.len(), query.as_ptr(), query.len(), report.as_mut_ptr(), report.len())
    }
}

pub fn derivation(order: &[u8], query: &[u8], buffer: &mut [u8]) -> u64 {
    // Sound: as above.
    unsafe {
        lemitsaka_derivation(
            order.as_ptr(),
            order.len(),
            query.as_ptr(),
            query.len(),
            buffer.as_mut_ptr(),
            buffer.len(),
        )
    }
}

pub fn links_verdict(order: &[u8], query: &[u8], report: &mut [u8]) -> u64 {
    // Sound: as above.
    unsafe {
        lemitsaka_links_verdict(
            order.as_ptr(),
            order.len(),
            query.as_ptr(),
            query.len(),
            report.as_mut_ptr(),
            report.len(),
        )
    }
}

pub fn links_derivation(order: &[u8], query: &[u8], buffer: &mut [u8]) -> u64 {
    // Sound: as above.
    unsafe {
        lemitsaka_links_derivation(
            order.as_ptr(),
            order.len(),
            query.as_ptr(),
            query.len(),
            buffer.as_mut_ptr(),
            buffer.len(),
        )
    }
}

pub fn links_rewrite(query: &[u8], links_query: &mut [u8]) -> u64 {
    // Sound: two live slices, the last one lent to this call alone.
    unsafe { lemitsaka_links_rewrite(query.as_ptr(), query.len(), links_query.as_mut_ptr(), links_query.len()) }
}

pub fn between(query: &[u8], report: &mut [u8]) -> u64 {
    // Sound: two live slices, the last one lent to this call alone.
    unsafe { lemitsaka_between(query.as_ptr(), query.len(), report.as_mut_ptr(), report.len()) }
}
