//! Compares the controller's library with the model: see `compare`.

use code::compare::run;
use code::steps::Pair;

fn main() {
    run::<Pair>();
}
