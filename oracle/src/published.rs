//! Is this build fit to judge? The toolchain must sum as document 01 says, and the sources should be the published ones.

use crate::BUILT_FROM;

/// The fingerprints of the non-test source of cool-japan/oxieml at commit fd90575a01, as delivered.
const DELIVERED: [(&str, u64); 5] = [
    ("src/error.rs", 0x09b5_2474_7408_4aba),
    ("src/linalg/builders.rs", 0x9508_ff82_5c3a_1325),
    ("src/linalg/decomp.rs", 0x096e_a85d_974f_2445),
    ("src/linalg/solve.rs", 0xa550_9943_3bc5_f4c6),
    ("src/symreg/strlsq.rs", 0xd70a_b627_59d0_6ca6),
];

/// The files that were built from another text than the delivered one.
pub fn other_texts() -> Vec<&'static str> {
    BUILT_FROM
        .iter()
        .filter(|file| !DELIVERED.contains(file))
        .map(|&(name, _)| name)
        .collect()
}

/// An empty `.sum::<f64>()` is -0.0, as `qr` needs it.
pub fn sums_start_at_minus_zero() -> bool {
    let none: [f64; 0] = std::hint::black_box([]);
    none.iter().sum::<f64>().to_bits() == (-0.0_f64).to_bits()
}

/// Ends the program where the toolchain can't judge, and says so where the sources are others.
pub fn check_build(program: &str) {
    if !sums_start_at_minus_zero() {
        eprintln!(
            "{program}: an empty `.sum::<f64>()` is not -0.0 on this toolchain, so it can't judge"
        );
        std::process::exit(2);
    }
    for name in other_texts() {
        eprintln!("{program}: note: {name} is not the delivered text");
    }
}

#[cfg(test)]
mod tests {
    #[test]
    fn the_build_can_judge() {
        assert!(super::sums_start_at_minus_zero());
        assert_eq!(super::other_texts(), Vec::<&str>::new());
    }
}
