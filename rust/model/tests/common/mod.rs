//! What tests of several files do.

use model::chain;
use record::Device;

/// Low clocks until each position has next returned to 0.
pub fn wait(devices: &mut [Device]) {
    let clocks = chain::clocks_to_boundary(devices).unwrap();
    let sent = chain::run(devices, &vec![0; clocks], clocks + 23);
    assert_eq!(sent, Ok(vec![]));
}
