//! The program of a controller in Rust, beside controller/firmware in C, for which it can be taken: it prepares the image that lies in its
//! flash, once, and then makes a tick for each word of the probes and switches the outputs by the tick's mask. Between two ticks the
//! operator may give a number to another scheme to serve. Whatever cannot be done stops it: all outputs are off, and the operator is told
//! why; only a swap that the chart does not allow is told and left.

#![cfg_attr(target_os = "none", no_std)]

mod guard;
mod port;
mod stop;

use core::convert::Infallible;
use core::sync::atomic::{AtomicU32, Ordering};

use fairleadow::{Machine, Meaning, Refusal, Table, TABLE, VERSION};
use guard::Guard;
use port::{tell, Came};
use stop::Stop;

/// The places of its stack.
const PLACES: usize = 3;

/// Where the table is prepared: outside the stack, which a preparation needs.
#[unsafe(export_name = "table")]
static mut BUFFER: [u8; TABLE] = [0; TABLE];

/// The ticks that were made.
static TICKS: AtomicU32 = AtomicU32::new(0);

fn ticks() -> u32 {
    TICKS.load(Ordering::Relaxed)
}

struct Controller<'a> {
    machine: Machine<&'a [u8]>,
    sums: Guard,
}

impl<'a> Controller<'a> {
    /// The table is looked through where the machine stands, since that takes longer than a tick.
    fn load(image: &[u8], buffer: &'a mut [u8; TABLE]) -> Result<Self, Stop> {
        let table = Table::prepare_in(image, buffer).map_err(Stop::Image)?;
        table.check().map_err(Stop::Table)?;
        let machine = Machine::fresh(table, PLACES)?;
        Ok(Controller { sums: Guard::of(&machine), machine })
    }

    /// What has changed since it was written is not used.
    fn compare(&mut self) -> Result<(), Stop> {
        if self.sums.state_changed(self.machine.state()) {
            return Err(Stop::StateChanged);
        }
        if self.sums.table_changed(self.machine.table()) {
            return Err(Stop::TableChanged { part: self.sums.next() });
        }
        Ok(())
    }

    /// At a home tick a block is done, and all outputs are off.
    fn tick(&mut self, word: u16) -> Result<(), Stop> {
        self.compare()?;
        let tick = self.machine.tick(word)?;
        self.sums.take_state(self.machine.state());
        TICKS.store(ticks() + 1, Ordering::Relaxed);
        tell!("word {word:04X}: code {:02X}, ", tick.code);
        port::port_set_outputs(tick.mask);
        if tick.meaning() == Meaning::Home {
            self.machine.table().check().map_err(Stop::Table)?;
        }
        Ok(())
    }

    /// A refused swap leaves the state as it was: the operator asked for one that there is not, and the ticks go on.
    fn swap(&mut self, number: u8, scheme: u8) -> Result<(), Stop> {
        self.compare()?;
        let given = match self.machine.rebind(number.into(), scheme.into()) {
            Ok(()) => "given",
            Err(Refusal::BadRebinding) => "not given",
            Err(refusal) => return Err(refusal.into()),
        };
        self.sums.take_state(self.machine.state());
        tell!("number {number} {given} to scheme {scheme}\n");
        Ok(())
    }
}

fn control(image: &[u8], buffer: &mut [u8; TABLE]) -> Result<Infallible, Stop> {
    if fairleadow::version() != VERSION {
        return Err(Stop::Version);
    }
    let mut controller = Controller::load(image, buffer)?;
    loop {
        match port::next() {
            Came::Word(word) => controller.tick(word)?,
            Came::Swap { number, scheme } => controller.swap(number, scheme)?,
            Came::Late => return Err(Stop::Late),
            Came::Nothing => return Err(Stop::NoWord),
        }
    }
}

/// Started once, by the board's first instructions.
// SAFETY: no other function has this name.
#[unsafe(no_mangle)]
extern "C" fn main() -> ! {
    port::port_open();
    port::port_set_outputs(0);
    let buffer = &raw mut BUFFER;
    // SAFETY: the program is started once, and the buffer has no other name in it.
    let Err(stop) = control(port::image(), unsafe { &mut *buffer });
    stop.make(ticks())
}

/// The processor calls this where it finds a fault.
// SAFETY: no other function has this name.
#[unsafe(no_mangle)]
extern "C" fn fault() -> ! {
    Stop::Fault.make(ticks())
}

#[cfg(target_os = "none")]
#[panic_handler]
fn panic(_: &core::panic::PanicInfo<'_>) -> ! {
    Stop::Fault.make(ticks())
}
