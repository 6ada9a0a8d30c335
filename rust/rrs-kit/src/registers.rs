//! Names of registers.

/// The names of the registers in the calling convention, x0 first.
const ABI_NAMES: [&str; 32] = [
    "zero", "ra", "sp", "gp", "tp", "t0", "t1", "t2", "s0", "s1", "a0", "a1", "a2", "a3", "a4",
    "a5", "a6", "a7", "s2", "s3", "s4", "s5", "s6", "s7", "s8", "s9", "s10", "s11", "t3", "t4",
    "t5", "t6",
];

/// The name of a register in the calling convention, `sp` for x2; `None` where there is no such
/// register.
///
/// # Examples
///
/// ```
/// use rrs_kit::instruction_formats::abi_name;
/// assert_eq!((abi_name(2), abi_name(31), abi_name(32)), (Some("sp"), Some("t6"), None));
/// ```
pub fn abi_name(register: usize) -> Option<&'static str> {
    ABI_NAMES.get(register).copied()
}
