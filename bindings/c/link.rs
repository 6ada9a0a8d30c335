//! A program of Rust that links librrs and calls it as C does: `rustc -L FOLDER link.rs`.

#[link(name = "rrs")]
extern "C" {
    fn rrs_disassemble(word: u32, pc: u32, text: *mut u8, size: usize) -> usize;
}

fn main() {
    let mut text = [0u8; 32];
    // the text has room, and nobody else has it
    let length = unsafe { rrs_disassemble(0x1234_b137, 0, text.as_mut_ptr(), text.len()) };
    println!("{}", String::from_utf8_lossy(&text[..length]));
}
