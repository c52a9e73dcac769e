//! Calls of the trait that are made as the reference makes them.

/// The calls of an `impl Library` that are answered as the reference answers them, by their names or those of some together: each is the
/// function of its name in `entry`. A tick that is not written out is made by the library's own run.
///
/// ```
/// use reference::{as_the_reference, Answer, Library, Refusal};
///
/// /// The reference, but it knows of no chart how many places it needs.
/// struct Placeless;
///
/// impl Library for Placeless {
///     as_the_reference!(read_chart, write_chart, translate, dry_run, image_calls, run_calls, rebindings, spins, value_calls);
///
///     fn places(&self, _: &[u8]) -> Answer {
///         Err(Refusal::CallsItself)
///     }
/// }
///
/// assert_eq!(Placeless.translate(b"", &mut []), Err(Refusal::BadLength));
/// ```
#[macro_export]
macro_rules! as_the_reference {
    ($($call:ident),* $(,)?) => { $($crate::as_the_reference!(@$call);)* };
    (@chart_calls) => { $crate::as_the_reference!(read_chart, write_chart, translate, places, dry_run); };
    (@image_calls) => {
        $crate::as_the_reference!(check_image, cause, list_rows, minimise, count_fillings, prepare, check_table, sum);
    };
    (@run_calls) => { $crate::as_the_reference!(run, priced_run, live_run); };
    (@rebindings) => { $crate::as_the_reference!(rebind, live_rebind); };
    (@spins) => { $crate::as_the_reference!(spin, live_spin); };
    (@value_calls) => { $crate::as_the_reference!(fresh, meaning, little_chart); };
    (@read_chart) => { $crate::as_the_reference!(@written read_chart); };
    (@write_chart) => { $crate::as_the_reference!(@written write_chart); };
    (@translate) => { $crate::as_the_reference!(@written translate); };
    (@minimise) => { $crate::as_the_reference!(@written minimise); };
    (@prepare) => { $crate::as_the_reference!(@written prepare); };
    (@places) => { $crate::as_the_reference!(@read places); };
    (@check_image) => { $crate::as_the_reference!(@read check_image); };
    (@check_table) => { $crate::as_the_reference!(@read check_table); };
    (@run) => { $crate::as_the_reference!(@ran run); };
    (@live_run) => { $crate::as_the_reference!(@ran live_run); };
    (@rebind) => { $crate::as_the_reference!(@rebound rebind); };
    (@live_rebind) => { $crate::as_the_reference!(@rebound live_rebind); };
    (@spin) => { $crate::as_the_reference!(@spun spin); };
    (@live_spin) => { $crate::as_the_reference!(@spun live_spin); };
    (@fresh) => {
        $crate::as_the_reference!(@fn fresh(size: usize) -> Result<$crate::State, $crate::Refusal>);
    };
    (@meaning) => { $crate::as_the_reference!(@fn meaning(code: u8) -> $crate::Meaning); };
    (@sum) => { $crate::as_the_reference!(@fn sum(sum: u32, bytes: &[u8]) -> u32); };
    (@dry_run) => {
        $crate::as_the_reference!(@fn dry_run(
            text: &[u8],
            size: usize,
            image: &mut [u8],
            words: &[u16],
            masks: &mut [u32],
            codes: &mut [u8]
        ) -> $crate::Answer);
    };
    (@priced_run) => {
        $crate::as_the_reference!(@fn priced_run(
            image: &[u8],
            state: &mut $crate::State,
            prices: &$crate::Prices,
            words: &[u16],
            masks: &mut [u32],
            codes: &mut [u8]
        ) -> $crate::PricedReport);
    };
    (@cause) => {
        $crate::as_the_reference!(@fn cause(
            image: &[u8],
            state: &$crate::State,
            word: u16
        ) -> Result<$crate::Cause, $crate::Refusal>);
    };
    (@list_rows) => {
        $crate::as_the_reference!(@fn list_rows(
            image: &[u8],
            firsts: &mut [u16],
            counts: &mut [u16]
        ) -> $crate::Answer);
    };
    (@little_chart) => {
        $crate::as_the_reference!(@fn little_chart(
            frames: usize,
            number: usize,
            text: &mut [u8]
        ) -> $crate::Answer);
    };
    (@count_fillings) => {
        $crate::as_the_reference!(@fn count_fillings(
            image: &[u8],
            size: usize,
            ticks: usize,
            conditions: usize
        ) -> Result<$crate::Fillings, $crate::Refusal>);
    };
    (@written $call:ident) => {
        $crate::as_the_reference!(@fn $call(given: &[u8], out: &mut [u8]) -> $crate::Answer);
    };
    (@read $call:ident) => { $crate::as_the_reference!(@fn $call(given: &[u8]) -> $crate::Answer); };
    (@ran $call:ident) => {
        $crate::as_the_reference!(@fn $call(
            ground: &[u8],
            state: &mut $crate::State,
            words: &[u16],
            masks: &mut [u32],
            codes: &mut [u8]
        ) -> $crate::Answer);
    };
    (@rebound $call:ident) => {
        $crate::as_the_reference!(@fn $call(
            ground: &[u8],
            state: &mut $crate::State,
            number: usize,
            scheme: usize
        ) -> $crate::Answer);
    };
    (@spun $call:ident) => {
        $crate::as_the_reference!(@fn $call(
            states: &mut [$crate::State],
            taken: &mut usize,
            spindle: usize,
            ground: &[u8],
            word: u16
        ) -> Result<$crate::Tick, $crate::Refusal>);
    };
    (@fn $call:ident($($given:ident: $kind:ty),*) -> $answer:ty) => {
        fn $call(&self, $($given: $kind),*) -> $answer {
            $crate::entry::$call($($given),*)
        }
    };
}
