//! The C functions, as include/fairleadow.h declares them.

/// The state as C keeps it.
#[repr(C)]
#[derive(Clone, Copy, Debug, PartialEq, Eq)]
pub struct State {
    pub size: u8,
    pub depth: u8,
    pub places: [u8; 32],
    pub results: [u8; 16],
    pub serving: [u8; 16],
    pub numbers: [u8; 32],
    pub servers: [u8; 32],
}

impl State {
    /// Every number 0.
    pub const NONE: State = State::filled(0);

    /// Every number this one.
    pub const fn filled(byte: u8) -> State {
        State {
            size: byte,
            depth: byte,
            places: [byte; 32],
            results: [byte; 16],
            serving: [byte; 16],
            numbers: [byte; 32],
            servers: [byte; 32],
        }
    }
}

impl From<&interface::State> for State {
    fn from(state: &interface::State) -> State {
        let interface::State { size, depth, places, results, serving, numbers, servers } = *state;
        State { size, depth, places, results: results.map(u8::from), serving, numbers, servers }
    }
}

impl From<&State> for interface::State {
    /// A result byte other than 0 is a 1.
    fn from(state: &State) -> interface::State {
        let State { size, depth, places, results, serving, numbers, servers } = *state;
        interface::State {
            size,
            depth,
            places,
            results: results.map(|byte| byte != 0),
            serving,
            numbers,
            servers,
        }
    }
}

/// A call that writes into one lent buffer: what is read, the buffer, index and count.
pub type Write = unsafe extern "C" fn(*const u8, u64, *mut u8, u64, *mut u64, *mut u64) -> u32;

/// A call that only reads: what is read, index and count.
pub type Read = unsafe extern "C" fn(*const u8, u64, *mut u64, *mut u64) -> u32;

/// A run: an image or a table, the state, words, masks, codes, index and count.
pub type Run = unsafe extern "C" fn(
    *const u8,
    u64,
    *mut State,
    *const u16,
    u64,
    *mut u32,
    u64,
    *mut u8,
    u64,
    *mut u64,
    *mut u64,
) -> u32;

/// A tick: an image or a table, the state, the word, mask, code, index and count.
pub type Tick =
    unsafe extern "C" fn(*const u8, u64, *mut State, u16, *mut u32, *mut u8, *mut u64, *mut u64) -> u32;

/// A rebinding: an image or a table, the state, the number, the scheme, index and count.
pub type Rebind = unsafe extern "C" fn(*const u8, u64, *mut State, u64, u64, *mut u64, *mut u64) -> u32;

/// The tick of a spindle: the states, how many there are, the record of places taken, the spindle's number, an image or a table, the word,
/// mask, code, index and count.
pub type Spin = unsafe extern "C" fn(
    *mut State,
    u64,
    *mut u64,
    u64,
    *const u8,
    u64,
    u16,
    *mut u32,
    *mut u8,
    *mut u64,
    *mut u64,
) -> u32;

unsafe extern "C" {
    pub fn fairleadow_read_chart(
        text: *const u8,
        text_len: u64,
        records: *mut u8,
        records_len: u64,
        index: *mut u64,
        count: *mut u64,
    ) -> u32;
    pub fn fairleadow_write_chart(
        records: *const u8,
        records_len: u64,
        text: *mut u8,
        text_len: u64,
        index: *mut u64,
        count: *mut u64,
    ) -> u32;
    pub fn fairleadow_translate(
        chart: *const u8,
        chart_len: u64,
        image: *mut u8,
        image_len: u64,
        index: *mut u64,
        count: *mut u64,
    ) -> u32;
    pub fn fairleadow_places(chart: *const u8, chart_len: u64, index: *mut u64, count: *mut u64) -> u32;
    pub fn fairleadow_check_image(image: *const u8, image_len: u64, index: *mut u64, count: *mut u64) -> u32;
    pub fn fairleadow_fresh(size: u64, state: *mut State, index: *mut u64, count: *mut u64) -> u32;
    pub fn fairleadow_run(
        image: *const u8,
        image_len: u64,
        state: *mut State,
        words: *const u16,
        words_len: u64,
        masks: *mut u32,
        masks_len: u64,
        codes: *mut u8,
        codes_len: u64,
        index: *mut u64,
        count: *mut u64,
    ) -> u32;
    pub fn fairleadow_dry_run(
        text: *const u8,
        text_len: u64,
        size: u64,
        image: *mut u8,
        image_len: u64,
        words: *const u16,
        words_len: u64,
        masks: *mut u32,
        masks_len: u64,
        codes: *mut u8,
        codes_len: u64,
        index: *mut u64,
        count: *mut u64,
    ) -> u32;
    pub fn fairleadow_priced_run(
        image: *const u8,
        image_len: u64,
        state: *mut State,
        prices: *const u16,
        words: *const u16,
        words_len: u64,
        masks: *mut u32,
        masks_len: u64,
        codes: *mut u8,
        codes_len: u64,
        price: *mut u64,
        index: *mut u64,
        count: *mut u64,
    ) -> u32;
    pub fn fairleadow_tick(
        image: *const u8,
        image_len: u64,
        state: *mut State,
        word: u16,
        mask: *mut u32,
        code: *mut u8,
        index: *mut u64,
        count: *mut u64,
    ) -> u32;
    pub fn fairleadow_rebind(
        image: *const u8,
        image_len: u64,
        state: *mut State,
        number: u64,
        scheme: u64,
        index: *mut u64,
        count: *mut u64,
    ) -> u32;
    pub fn fairleadow_spin(
        states: *mut State,
        states_len: u64,
        taken: *mut u64,
        spindle: u64,
        image: *const u8,
        image_len: u64,
        word: u16,
        mask: *mut u32,
        code: *mut u8,
        index: *mut u64,
        count: *mut u64,
    ) -> u32;
    pub fn fairleadow_cause(
        image: *const u8,
        image_len: u64,
        state: *const State,
        word: u16,
        row: *mut u16,
        mask: *mut u16,
        bit: *mut u8,
        index: *mut u64,
        count: *mut u64,
    ) -> u32;
    pub fn fairleadow_list_rows(
        image: *const u8,
        image_len: u64,
        firsts: *mut u16,
        firsts_len: u64,
        counts: *mut u16,
        counts_len: u64,
        index: *mut u64,
        count: *mut u64,
    ) -> u32;
    pub fn fairleadow_minimise(
        image: *const u8,
        image_len: u64,
        smaller: *mut u8,
        smaller_len: u64,
        index: *mut u64,
        count: *mut u64,
    ) -> u32;
    pub fn fairleadow_little_chart(
        frames: u64,
        number: u64,
        text: *mut u8,
        text_len: u64,
        index: *mut u64,
        count: *mut u64,
    ) -> u32;
    pub fn fairleadow_count_fillings(
        image: *const u8,
        image_len: u64,
        size: u64,
        ticks: u64,
        conditions: u64,
        ended: *mut u32,
        full: *mut u32,
        unmatched: *mut u32,
        index: *mut u64,
        count: *mut u64,
    ) -> u32;
    pub fn fairleadow_prepare(
        image: *const u8,
        image_len: u64,
        table: *mut u8,
        table_len: u64,
        index: *mut u64,
        count: *mut u64,
    ) -> u32;
    pub fn fairleadow_check_table(table: *const u8, table_len: u64, index: *mut u64, count: *mut u64) -> u32;
    pub fn fairleadow_sum(sum: u32, bytes: *const u8, bytes_len: u64) -> u32;
    pub fn fairleadow_live_run(
        table: *const u8,
        table_len: u64,
        state: *mut State,
        words: *const u16,
        words_len: u64,
        masks: *mut u32,
        masks_len: u64,
        codes: *mut u8,
        codes_len: u64,
        index: *mut u64,
        count: *mut u64,
    ) -> u32;
    pub fn fairleadow_live_tick(
        table: *const u8,
        table_len: u64,
        state: *mut State,
        word: u16,
        mask: *mut u32,
        code: *mut u8,
        index: *mut u64,
        count: *mut u64,
    ) -> u32;
    pub fn fairleadow_live_rebind(
        table: *const u8,
        table_len: u64,
        state: *mut State,
        number: u64,
        scheme: u64,
        index: *mut u64,
        count: *mut u64,
    ) -> u32;
    pub fn fairleadow_live_spin(
        states: *mut State,
        states_len: u64,
        taken: *mut u64,
        spindle: u64,
        table: *const u8,
        table_len: u64,
        word: u16,
        mask: *mut u32,
        code: *mut u8,
        index: *mut u64,
        count: *mut u64,
    ) -> u32;
    pub fn fairleadow_meaning(code: u8, called: *mut u8) -> u32;
    pub fn fairleadow_version() -> u32;
}
