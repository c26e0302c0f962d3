//! The code of the library: the assembly for the target in dist/, which scripts/dist makes from the proved module.

#[cfg(all(target_arch = "aarch64", target_os = "linux"))]
core::arch::global_asm!(
    ".pushsection .text",
    include_str!("../../../dist/aarch64/undrwyth.s"),
    ".popsection",
    options(raw)
);

#[cfg(all(target_arch = "x86_64", target_os = "linux"))]
core::arch::global_asm!(
    ".pushsection .text",
    include_str!("../../../dist/x86_64/undrwyth.s"),
    ".popsection",
    options(att_syntax, raw)
);

#[cfg(not(all(
    any(target_arch = "aarch64", target_arch = "x86_64"),
    target_os = "linux"
)))]
compile_error!("dist/ has no assembly for this target: it has 64-bit ARM and x86-64 under Linux");
