//! The library of the rules as the Rattle kit made it, in assembly: `tests/library` of the repository
//! proves its sources again and compares. `build.rs` decides whether it is taken.
#[cfg(target_arch = "x86_64")]
core::arch::global_asm!(include_str!("../../rules/x86_64-linux.s"), options(att_syntax, raw));
#[cfg(target_arch = "aarch64")]
core::arch::global_asm!(include_str!("../../rules/aarch64-linux.s"), options(raw));

#[cfg(test)]
mod tests {
    /// The compiler would take a label such as `.LCPI5_0` for its own, without a word, and so put
    /// the assembly's constant in the place of another one.
    #[test]
    fn no_label_may_be_one_of_the_compilers() {
        let x86_64 = include_str!("../../rules/x86_64-linux.s");
        let aarch64 = include_str!("../../rules/aarch64-linux.s");
        let lines = x86_64.lines().chain(aarch64.lines());
        let mut labels = lines.filter(|line| line.starts_with(".L"));
        let is_own = |label: &str| label.starts_with(".Lin.") || label.starts_with(".Lrattle_");
        assert!(labels.all(is_own));
    }
}
