//! The stack that the deepest step takes.
use crate::calls::{Program, PROGRAMS};
use crate::charts::{self, Case, Sends};
use crate::host::{agree, Host, LIFT};
use crate::measure::opaque;
use crate::table::{self, columns, number, whole};
use crate::wanted::Figure;

const WANTED_BYTES: f64 = 16_384.0;

pub fn of_the_deepest_step() -> Vec<Figure> {
    table::begin("The stack of the deepest step, bytes", &columns(&["its sends", "units", "items"], &[]));
    let mut figures = vec![];
    for (sends, place) in [(Sends::InDuring, "in a during action"), (Sends::InConditionAction, "in a condition action")] {
        let case = charts::deepest(sends);
        let work = agree(&case, LIFT);
        let bytes = PROGRAMS.map(|program| stack_of(program, &case) as f64);
        let mut cells = vec![place.to_string(), number(work.units), number(work.items)];
        cells.extend(bytes.map(whole));
        table::row(&cells);
        figures.push(Figure::new(format!("the stack of the deepest step, its sends {place}, bytes"), bytes[0], WANTED_BYTES));
    }
    figures
}

/// On a thread of its own, whose stack is sure to be there.
fn stack_of(program: Program, case: &Case) -> usize {
    let measure = || {
        let mut host = Host::new(program, case, LIFT);
        assert_eq!(host.next() % 256, 0);
        touched(&mut || assert_eq!(opaque(host.next()) % 256, 0))
    };
    let thread = std::thread::Builder::new().stack_size(4 << 20);
    std::thread::scope(|scope| thread.spawn_scoped(scope, measure).unwrap().join().unwrap())
}

/// The bytes of stack that a call touches: those below this frame are painted, and looked at afterwards. Some hundred of them are
/// this program's own.
#[inline(never)]
fn touched(call: &mut dyn FnMut()) -> usize {
    const DEEP: usize = 1 << 20;
    const PAINT: u8 = 0xA5;
    let top: usize;
    unsafe { std::arch::asm!("mov {}, rsp", out(reg) top) };
    // without the 128 bytes that a function may use below its frame
    for at in top - DEEP..top - 128 {
        unsafe { std::ptr::write_volatile(at as *mut u8, PAINT) };
    }
    call();
    let lowest = (top - DEEP..top).find(|&at| unsafe { std::ptr::read_volatile(at as *const u8) } != PAINT);
    top - lowest.unwrap()
}
