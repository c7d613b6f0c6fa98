//! `stack`: the peak stack of each call, by painting a thread's stack below the caller's frame.

use std::arch::asm;
use std::hint::black_box;

const PAINT: u64 = 0xA5A5_5A5A_C3C3_3C3C;
const WORDS: usize = 1 << 16;

/// Bytes of stack below this function's frame that the call wrote to.
#[inline(never)]
fn peak(call: &mut dyn FnMut()) -> usize {
    let frame: usize;
    unsafe { asm!("mov {}, rsp", out(reg) frame) };
    // Beyond this function's own red zone.
    let top = (frame - 256) & !7;
    let low = top - 8 * WORDS;
    for place in (low..top).step_by(8).rev() {
        unsafe { std::ptr::write_volatile(place as *mut u64, PAINT) };
    }
    call();
    let written = (low..top)
        .step_by(8)
        .find(|&place| unsafe { std::ptr::read_volatile(place as *const u64) } != PAINT);
    frame - written.unwrap_or(top)
}

fn measure(name: &str, mut call: impl FnMut() + Send + 'static) {
    let thread = std::thread::Builder::new().stack_size(8 << 20);
    let run = move || {
        peak(&mut || {
            black_box(0);
        });
        peak(&mut call)
    };
    let bytes = thread.spawn(run).expect("a thread").join().expect("no panic");
    println!("{name}: {bytes} bytes");
}

/// One equation that takes 38 rounds, in columns 0 and 1 of `v` unknowns.
fn deep(v: usize, table: &mut [i32]) {
    let mut numbers = [0; 32];
    (numbers[0], numbers[1]) = (63_245_986, -87_403_803);
    let answer = library::eliminate(black_box(v), &numbers, table);
    assert_eq!((answer.number, answer.rounds), (0, 38));
}

/// The sheet of the stored cases whose equation takes 38 rounds.
fn deep_sheet(sheet: &[u8], table: &mut [i32]) {
    let answer = library::check(black_box(sheet), table);
    assert_eq!((answer.number, answer.rounds), (0, 38));
}

fn main() {
    let stored = concat!(env!("CARGO_MANIFEST_DIR"), "/../cases/rounds-38.sheet");
    let sheet = std::fs::read(stored).expect("the stored case is there");
    let mut table = vec![0; 768];
    measure("eliminate, 38 rounds, V = 2", {
        let mut table = table.clone();
        move || deep(2, &mut table)
    });
    measure("eliminate, 38 rounds, V = 24", {
        let mut table = table.clone();
        move || deep(24, &mut table)
    });
    measure("check, 38 rounds", move || deep_sheet(&sheet, &mut table));
}
