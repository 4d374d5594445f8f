//! Every division of the programs goes through here, so that one build can have it done by a loop instead of an instruction.
//! With `--cfg no_divider` it counts what the programs cost on a processor without a divider.

#[cfg(not(no_divider))]
mod by {
    #[inline(always)]
    pub fn quotient(a: u64, b: u64) -> u64 {
        a / b
    }

    #[inline(always)]
    pub fn remainder(a: u64, b: u64) -> u64 {
        a % b
    }
}

#[cfg(no_divider)]
mod by {
    /// The quotient by shifting and subtracting, a turn for each of its bits. The divisor is not 0.
    /// It has a plain name, since the archives of this build call it too.
    #[no_mangle]
    #[inline(never)]
    pub extern "C" fn software_quotient(mut a: u64, b: u64) -> u64 {
        if a < b {
            return 0;
        }
        let mut bits = b.leading_zeros() - a.leading_zeros();
        let mut aligned = b << bits;
        let mut quotient = 0;
        loop {
            quotient *= 2;
            if aligned <= a {
                a -= aligned;
                quotient += 1;
            }
            if bits == 0 {
                return quotient;
            }
            aligned /= 2;
            bits -= 1;
        }
    }

    #[inline(always)]
    pub fn quotient(a: u64, b: u64) -> u64 {
        software_quotient(a, b)
    }

    /// From the quotient, so that who needs both divides once.
    #[inline(always)]
    pub fn remainder(a: u64, b: u64) -> u64 {
        a - software_quotient(a, b) * b
    }
}

pub use by::{quotient, remainder};
