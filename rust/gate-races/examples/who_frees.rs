//! Shows who frees a device that is removed while a request is in flight. In every interleaving exactly one call returns `last`, and its
//! caller frees the device.
use std::collections::BTreeMap;
use std::error::Error;

const RACE: &[u8] = b"races 1\nworld 1 1 atomic 0\n0 live 0 / put 0 1\nc kill\n";

fn main() -> Result<(), Box<dyn Error>> {
    let outcomes = String::from_utf8(gate_races::outcomes(RACE)?)?;
    let mut frees = BTreeMap::new();
    for outcome in outcomes.split("outcome ").skip(1) {
        let [request, removal] = [1, 2].map(|at| outcome.lines().nth(at).unwrap_or_default());
        let is_last =
            |line: &str| line.contains("last") && line.matches("last").count() > line.matches("not last").count();
        let who = match (is_last(request), is_last(removal)) {
            (true, false) => "the request frees the device",
            (false, true) => "the removal frees the device",
            _ => return Err(format!("not one last call: {request}, {removal}").into()),
        };
        *frees.entry(who).or_insert(0) += 1;
    }
    for (who, count) in frees {
        println!("{who} in {count} outcomes");
    }
    Ok(())
}
