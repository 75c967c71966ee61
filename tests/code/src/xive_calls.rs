//! Compares the library of POWER9's sources with the model: see `compare`.

use code::compare::run;
use code::xive::steps::Side;

fn main() {
    run::<Side>();
}
