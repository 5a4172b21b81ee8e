//! The totals of capacities and the fee, written from change 9 of document 02: "FEE, inputs' total less outputs' total"; "39
//! where a total passes 2^64−1, inputs first, then 48 where outputs exceed inputs, both after 28". Totals are of all inputs,
//! whichever lock they run, and of all outputs.

use ckb_std::Scene;

/// The number of a total that passes 2^64−1.
pub const LENGTH_OVERFLOW: i8 = 39;
/// The number of outputs that have more than the inputs.
pub const OUTPUTS_EXCEED_INPUTS: i8 = 48;
/// The greatest total that passes.
pub const LAST: u128 = u64::MAX as u128;

/// Sums that cannot overflow: 64 lines have less than 2^70 together.
#[derive(Clone, Copy)]
pub struct Totals {
    pub inputs: u128,
    pub outputs: u128,
}

fn total(capacities: impl Iterator<Item = u64>) -> u128 {
    capacities.map(u128::from).sum()
}

impl Totals {
    pub fn of(scene: &Scene) -> Self {
        Totals {
            inputs: total(scene.inputs.iter().map(|input| input.capacity)),
            outputs: total(scene.outputs.iter().map(|output| output.capacity)),
        }
    }

    /// The fee, or the number that refuses.
    pub fn fee(self) -> Result<u64, i8> {
        if self.inputs > LAST {
            return Err(LENGTH_OVERFLOW);
        }
        if self.outputs > LAST {
            return Err(LENGTH_OVERFLOW);
        }
        if self.outputs > self.inputs {
            return Err(OUTPUTS_EXCEED_INPUTS);
        }
        Ok((self.inputs - self.outputs) as u64)
    }
}
