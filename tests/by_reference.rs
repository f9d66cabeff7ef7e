//! What a call must come to by the reference: its packed answer and all bytes of its buffers.

use crate::library::{Call, Export, Outcome};
use crate::reference::{self, listing, pack, Counted};

pub fn by_reference(call: &Call) -> Outcome {
    let inputs = &call.inputs;
    let mut buffers: Vec<Vec<u8>> = call.buffers.iter().map(|buffer| buffer.to_vec()).collect();
    let packed = match call.export {
        Export::ReadDevice => pack(reference::read_device(inputs[0]).map(|device| device.owner.len() as u64)),
        Export::ReadProgram => pack(reference::read_program(inputs[0]).map(|_| 0)),
        Export::Check => pack(reference::check(inputs[0], inputs[1], call.numbers[0]).map(Counted::value)),
        Export::Route => {
            let [job, first, second] = call.numbers[..] else { unreachable!() };
            let buffer = &mut buffers[0];
            let answer = reference::route(inputs[0], job, inputs[1], first, second, buffer);
            pack(answer.map(|locations| locations as u64))
        }
        Export::Run => {
            let [records, map] = &mut buffers[..] else { unreachable!() };
            let answer =
                reference::run(inputs[0], inputs[1], inputs[2], inputs[3], records, map);
            pack(answer.map(|(one, two)| u64::from(one) + 65_536 * u64::from(two)))
        }
        Export::WriteListing => pack(listing::write_listing(inputs[0], &mut buffers[0]).map(|bytes| bytes as u64)),
        Export::ReadListing => pack(listing::read_listing(inputs[0], &mut buffers[0]).map(|bytes| bytes as u64)),
    };
    Outcome { packed, buffers }
}
