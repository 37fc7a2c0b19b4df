//! A slice that is lent to the library, with guards on both sides.

/// Numbers on each side that no call may touch.
const GUARD: usize = 4;
/// What stands there.
const GUARD_BITS: u64 = 0x4b1d_c0de_4b1d_c0de;

#[derive(Clone, Debug)]
pub struct Slice {
    pub name: &'static str,
    whole: Vec<f64>,
    /// An empty slice is given as a null pointer.
    null: bool,
}

impl Slice {
    pub fn new(name: &'static str, numbers: &[f64], null: bool) -> Slice {
        let mut whole = vec![f64::from_bits(GUARD_BITS); GUARD];
        whole.extend(numbers);
        whole.extend([f64::from_bits(GUARD_BITS); GUARD]);
        Slice {
            name,
            whole,
            null: null && numbers.is_empty(),
        }
    }

    pub fn len(&self) -> usize {
        self.whole.len() - 2 * GUARD
    }

    pub fn is_empty(&self) -> bool {
        self.len() == 0
    }

    pub fn numbers(&self) -> &[f64] {
        &self.whole[GUARD..GUARD + self.len()]
    }

    pub fn numbers_mut(&mut self) -> &mut [f64] {
        let len = self.len();
        &mut self.whole[GUARD..GUARD + len]
    }

    /// The pointer for the library.
    pub fn ptr(&mut self) -> *mut f64 {
        if self.null {
            std::ptr::null_mut()
        } else {
            self.whole[GUARD..].as_mut_ptr()
        }
    }

    /// Are the numbers on both sides as they were?
    pub fn guards_hold(&self) -> bool {
        let end = self.whole.len() - GUARD;
        let guards = self.whole[..GUARD].iter().chain(&self.whole[end..]);
        guards.into_iter().all(|x| x.to_bits() == GUARD_BITS)
    }
}
