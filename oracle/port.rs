//! The port, linked: the functions of the crate `linked`, and a heap that keeps the parts of its state.

#[link(name = "linked", kind = "static")]
extern "C" {
    fn gaissomet_new(
        wanted: u32,
        codes: *const [u8; 4],
        kind: *mut u32,
        table: *mut [u8; 4],
        len: *mut u32,
        topped: *mut bool,
        top0: *mut u64,
        top1: *mut u64,
        first: *mut [u32; 131],
        last: *mut [u32; 131],
        busy: *mut [u64; 3],
        keys: *mut u64,
        key_words: usize,
        values: *mut u64,
        value_count: usize,
        next: *mut u32,
        next_count: usize,
        back: *mut u32,
        back_count: usize,
    ) -> u8;
    fn gaissomet_batch(
        kind: *mut u32,
        table: *mut [u8; 4],
        len: *mut u32,
        topped: *mut bool,
        top0: *mut u64,
        top1: *mut u64,
        first: *mut [u32; 131],
        last: *mut [u32; 131],
        busy: *mut [u64; 3],
        keys: *mut u64,
        key_words: usize,
        values: *mut u64,
        value_count: usize,
        next: *mut u32,
        next_count: usize,
        back: *mut u32,
        back_count: usize,
        records: *const u8,
        record_bytes: usize,
        answers: *mut u8,
        answer_bytes: usize,
        count: *mut usize,
    ) -> u8;
    fn gaissomet_examine(
        kind: u32,
        table: *const [u8; 4],
        len: u32,
        topped: bool,
        top0: u64,
        top1: u64,
        first: *const [u32; 131],
        last: *const [u32; 131],
        busy: *const [u64; 3],
        keys: *const u64,
        key_words: usize,
        values: *const u64,
        value_count: usize,
        next: *const u32,
        next_count: usize,
        back: *const u32,
        back_count: usize,
    ) -> u8;
}

pub struct Port {
    kind: u32,
    table: [u8; 4],
    len: u32,
    topped: bool,
    top0: u64,
    top1: u64,
    first: [u32; 131],
    last: [u32; 131],
    busy: [u64; 3],
    keys: Vec<u64>,
    values: Vec<u64>,
    next: Vec<u32>,
    back: Vec<u32>,
}

impl Port {
    /// A fresh heap.
    pub fn new(kind: u32, codes: [u8; 4], slots: usize) -> Self {
        let mut p = Port {
            kind: 0,
            table: [0; 4],
            len: 0,
            topped: false,
            top0: 0,
            top1: 0,
            first: [0; 131],
            last: [0; 131],
            busy: [0; 3],
            keys: vec![0; if matches!(kind, 4 | 5) { 2 * slots } else { slots }],
            values: vec![0; slots],
            next: vec![0; slots],
            back: vec![0; slots],
        };
        // SAFETY: each pointer is that of a field, with the field's own length, and no two are the same
        let code = unsafe {
            gaissomet_new(
                kind,
                &codes,
                &mut p.kind,
                &mut p.table,
                &mut p.len,
                &mut p.topped,
                &mut p.top0,
                &mut p.top1,
                &mut p.first,
                &mut p.last,
                &mut p.busy,
                p.keys.as_mut_ptr(),
                p.keys.len(),
                p.values.as_mut_ptr(),
                p.values.len(),
                p.next.as_mut_ptr(),
                p.next.len(),
                p.back.as_mut_ptr(),
                p.back.len(),
            )
        };
        assert!(code == 0, "a fresh heap was refused: {code}");
        assert!((p.kind, p.table) == (kind, codes), "the kind came back as {} with {:?}", p.kind, p.table);
        p.words_are_right();
        p
    }

    /// Bit b of the three words is set exactly when bucket b has a first link, and no other bit is.
    pub fn words_are_right(&self) {
        let mut words = [0; 3];
        for b in (0..129).filter(|&b| self.first[b] != 0) {
            words[b / 64] |= 1 << (b % 64);
        }
        assert!(self.busy == words, "the busy words are {:x?}, those of the first links {words:x?}", self.busy);
    }

    pub fn batch(&mut self, records: &[u8], answers: &mut [u8]) {
        let mut count = 0;
        // SAFETY: as above; the records are only read, and the answers are lent by themselves
        let code = unsafe {
            gaissomet_batch(
                &mut self.kind,
                &mut self.table,
                &mut self.len,
                &mut self.topped,
                &mut self.top0,
                &mut self.top1,
                &mut self.first,
                &mut self.last,
                &mut self.busy,
                self.keys.as_mut_ptr(),
                self.keys.len(),
                self.values.as_mut_ptr(),
                self.values.len(),
                self.next.as_mut_ptr(),
                self.next.len(),
                self.back.as_mut_ptr(),
                self.back.len(),
                records.as_ptr(),
                records.len(),
                answers.as_mut_ptr(),
                answers.len(),
                &mut count,
            )
        };
        assert!(code == 0 && count == records.len() / 32, "a batch was refused: {code}");
    }

    pub fn examine(&self) {
        // SAFETY: as above, and everything is only read
        let code = unsafe {
            gaissomet_examine(
                self.kind,
                &self.table,
                self.len,
                self.topped,
                self.top0,
                self.top1,
                &self.first,
                &self.last,
                &self.busy,
                self.keys.as_ptr(),
                self.keys.len(),
                self.values.as_ptr(),
                self.values.len(),
                self.next.as_ptr(),
                self.next.len(),
                self.back.as_ptr(),
                self.back.len(),
            )
        };
        assert!(code == 0, "the pool is not sound: {code}");
    }
}
