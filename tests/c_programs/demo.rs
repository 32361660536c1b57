//! Prints by core::fmt, and panics where an index is too large: `cargo run` ends with the panic's code, 101.
#![no_std]
#![no_main]
use core::fmt::Write;
use core::panic::PanicInfo;

core::arch::global_asm!(
    ".section .text.start, \"ax\"",
    ".globl _start",
    "_start: la sp, __stack_top",
    "call main",
    "tail halt",
);

struct Serial;
impl Write for Serial {
    fn write_str(&mut self, text: &str) -> core::fmt::Result {
        for byte in text.bytes() {
            unsafe { core::ptr::write_volatile(0x1000_0000 as *mut u8, byte) }
        }
        Ok(())
    }
}

#[no_mangle]
extern "C" fn halt(code: u32) -> ! {
    loop {
        let word = if code == 0 { 0x5555 } else { code << 16 | 0x3333 };
        unsafe { core::ptr::write_volatile(0x10_0000 as *mut u32, word) }
    }
}

#[panic_handler]
fn panic(info: &PanicInfo) -> ! {
    let _ = writeln!(Serial, "{}", info);
    halt(101)
}

#[no_mangle]
extern "C" fn main() -> u32 {
    let table = [3, 1, 4, 1, 5, 9, 2, 6];
    let sum: u32 = table.iter().sum();
    let _ = writeln!(Serial, "sum {} of {:?}", sum, table);
    let at = table.iter().filter(|&&n| n > 2).count() + sum as usize;
    table[at]
}
