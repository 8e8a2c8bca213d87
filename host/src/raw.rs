//! The exported functions as C sees them: numbers, and a pointer and a count for a slice. Each returns its refusal's number, or 0; what a call
//! gives goes into a record of eight words, which a refused call leaves as it was. Written by tools/abi.py from abi/calls.toml.

unsafe extern "C" {
    pub fn vizturel_abi_new(words: *mut u64, count: usize, limits: *const u64, limits_count: usize) -> u64;
    pub fn vizturel_abi_set(
        words: *mut u64,
        count: usize,
        world: u64,
        lower_kind: u64,
        lower: u64,
        upper_kind: u64,
        upper: u64,
        value: u64,
        answer: *mut u64,
    ) -> u64;
    pub fn vizturel_abi_flip(
        words: *mut u64,
        count: usize,
        world: u64,
        lower_kind: u64,
        lower: u64,
        upper_kind: u64,
        upper: u64,
    ) -> u64;
    pub fn vizturel_abi_set_strict(
        words: *mut u64,
        count: usize,
        world: u64,
        lower_kind: u64,
        lower: u64,
        upper_kind: u64,
        upper: u64,
        value: u64,
        answer: *mut u64,
    ) -> u64;
    pub fn vizturel_abi_flip_strict(
        words: *mut u64,
        count: usize,
        world: u64,
        lower_kind: u64,
        lower: u64,
        upper_kind: u64,
        upper: u64,
    ) -> u64;
    pub fn vizturel_abi_set_rect(
        words: *mut u64,
        count: usize,
        world: u64,
        top: u64,
        left: u64,
        bottom: u64,
        right: u64,
        value: u64,
        answer: *mut u64,
    ) -> u64;
    pub fn vizturel_abi_shift(words: *mut u64, count: usize, world: u64, distance: u64, left: u64) -> u64;
    pub fn vizturel_abi_get(words: *const u64, count: usize, world: u64, x: u64, answer: *mut u64) -> u64;
    pub fn vizturel_abi_run_at(words: *const u64, count: usize, world: u64, x: u64, answer: *mut u64) -> u64;
    pub fn vizturel_abi_find(
        words: *const u64,
        count: usize,
        world: u64,
        lower_kind: u64,
        lower: u64,
        upper_kind: u64,
        upper: u64,
        value: u64,
        answer: *mut u64,
    ) -> u64;
    pub fn vizturel_abi_tally(
        words: *const u64,
        count: usize,
        world: u64,
        lower_kind: u64,
        lower: u64,
        upper_kind: u64,
        upper: u64,
        value: u64,
        answer: *mut u64,
    ) -> u64;
    pub fn vizturel_abi_tally_strict(
        words: *const u64,
        count: usize,
        world: u64,
        lower_kind: u64,
        lower: u64,
        upper_kind: u64,
        upper: u64,
        value: u64,
        answer: *mut u64,
    ) -> u64;
    pub fn vizturel_abi_select(
        words: *const u64,
        count: usize,
        world: u64,
        lower_kind: u64,
        lower: u64,
        upper_kind: u64,
        upper: u64,
        value: u64,
        k: u64,
        answer: *mut u64,
    ) -> u64;
    pub fn vizturel_abi_ranges(
        words: *const u64,
        count: usize,
        world: u64,
        lower_kind: u64,
        lower: u64,
        upper_kind: u64,
        upper: u64,
        value: u64,
        answer: *mut u64,
    ) -> u64;
    pub fn vizturel_abi_draw_front(
        words: *const u64,
        count: usize,
        world: u64,
        first: u64,
        last: u64,
        value: u64,
        answer: *mut u64,
    ) -> u64;
    pub fn vizturel_abi_draw_back(
        words: *const u64,
        count: usize,
        world: u64,
        first: u64,
        last: u64,
        value: u64,
        answer: *mut u64,
    ) -> u64;
    pub fn vizturel_abi_gap(
        words: *const u64,
        count: usize,
        world: u64,
        lower_kind: u64,
        lower: u64,
        upper_kind: u64,
        upper: u64,
        n: u64,
        answer: *mut u64,
    ) -> u64;
    pub fn vizturel_abi_fill(
        words: *const u64,
        count: usize,
        world: u64,
        base: u64,
        length: u64,
        answer: *mut u64,
    ) -> u64;
    pub fn vizturel_abi_count_rect(
        words: *const u64,
        count: usize,
        world: u64,
        top: u64,
        left: u64,
        bottom: u64,
        right: u64,
        answer: *mut u64,
    ) -> u64;
    pub fn vizturel_abi_survey(
        words: *const u64,
        count: usize,
        world: u64,
        row: u64,
        column: u64,
        k: u64,
        out: *mut u64,
        out_count: usize,
        answer: *mut u64,
    ) -> u64;
    pub fn vizturel_abi_eq(
        words: *const u64,
        count: usize,
        world: u64,
        b: *const u64,
        b_count: usize,
        b_world: u64,
        answer: *mut u64,
    ) -> u64;
    pub fn vizturel_abi_combine(
        words: *mut u64,
        count: usize,
        world: u64,
        op: u64,
        a: *const u64,
        a_count: usize,
        a_world: u64,
        b: *const u64,
        b_count: usize,
        b_world: u64,
    ) -> u64;
    pub fn vizturel_abi_not(
        words: *mut u64,
        count: usize,
        world: u64,
        a: *const u64,
        a_count: usize,
        a_world: u64,
    ) -> u64;
    pub fn vizturel_abi_shifted(
        words: *mut u64,
        count: usize,
        world: u64,
        distance: u64,
        left: u64,
        a: *const u64,
        a_count: usize,
        a_world: u64,
    ) -> u64;
    pub fn vizturel_abi_load(words: *mut u64, count: usize, world: u64, bytes: *const u8, bytes_count: usize) -> u64;
    pub fn vizturel_abi_mend(
        words: *mut u64,
        count: usize,
        world: u64,
        bytes: *const u8,
        bytes_count: usize,
        out: *mut u8,
        out_count: usize,
        report: *mut u8,
        report_count: usize,
        answer: *mut u64,
    ) -> u64;
    pub fn vizturel_abi_build(words: *mut u64, count: usize, world: u64, runs: *const u64, runs_count: usize) -> u64;
    pub fn vizturel_abi_write(
        words: *const u64,
        count: usize,
        world: u64,
        edition: u64,
        out: *mut u8,
        out_count: usize,
        answer: *mut u64,
    ) -> u64;
    pub fn vizturel_abi_convert(
        bytes: *const u8,
        bytes_count: usize,
        out: *mut u8,
        out_count: usize,
        answer: *mut u64,
    ) -> u64;
    pub fn vizturel_abi_write_map(
        words: *const u64,
        count: usize,
        world: u64,
        base: u64,
        length: u64,
        out: *mut u8,
        out_count: usize,
        answer: *mut u64,
    ) -> u64;
    pub fn vizturel_abi_write_map_by_bytes(
        words: *const u64,
        count: usize,
        world: u64,
        base: u64,
        length: u64,
        out: *mut u8,
        out_count: usize,
        answer: *mut u64,
    ) -> u64;
    pub fn vizturel_abi_read_map(
        words: *mut u64,
        count: usize,
        world: u64,
        base: u64,
        length: u64,
        bytes: *const u8,
        bytes_count: usize,
        answer: *mut u64,
    ) -> u64;
    pub fn vizturel_abi_read_map_by_bytes(
        words: *mut u64,
        count: usize,
        world: u64,
        base: u64,
        length: u64,
        bytes: *const u8,
        bytes_count: usize,
        answer: *mut u64,
    ) -> u64;
    pub fn vizturel_abi_clear_map(base: u64, length: u64, map: *mut u8, map_count: usize, answer: *mut u64) -> u64;
    pub fn vizturel_abi_deepest(
        words: *const u64,
        count: usize,
        h: u64,
        out: *mut u64,
        out_count: usize,
        answer: *mut u64,
    ) -> u64;
    pub fn vizturel_abi_why_full(
        words: *const u64,
        count: usize,
        ranges: *const u64,
        ranges_words: usize,
        out: *mut u64,
        out_count: usize,
        answer: *mut u64,
    ) -> u64;
    pub fn vizturel_abi_frame(
        words: *mut u64,
        count: usize,
        calls: *const u64,
        calls_words: usize,
        answers: *mut u64,
        answers_words: usize,
    ) -> u64;
}
