//! What is held to what: each call's painted and computed stack to its bound, and the painted one to
//! the computed one.

use std::collections::BTreeMap;

use crate::calls::bound;
use crate::computed::Computed;

/// The painted bytes of each call.
pub type Painted = BTreeMap<String, u64>;

/// Reads what the painting program prints: a call and its bytes on each line.
pub fn painted(text: &str) -> Result<Painted, String> {
    let mut painted = Painted::new();
    for line in text.lines() {
        let call = line.split_once(' ');
        let call = call.and_then(|(name, bytes)| Some((name, bytes.trim().parse().ok()?)));
        let (name, bytes) = call.ok_or(format!("`{line}` is not a call and its bytes"))?;
        painted.insert(name.to_string(), bytes);
    }
    Ok(painted)
}

/// What is wrong, each on a line. If a bound is given, it takes the place of every call's own.
pub fn faults(computed: &[Computed], painted: &Painted, given: Option<u64>) -> Vec<String> {
    let mut faults = Vec::new();
    for call in computed {
        let Computed { name, bytes, .. } = call;
        let most = given.or(bound(name)).unwrap_or(0);
        if *bytes > most {
            faults.push(format!("{name}: computed {bytes} bytes, of {most} allowed"));
        }
        match painted.get(*name) {
            None => faults.push(format!("{name}: not painted")),
            Some(painted) if painted > bytes => faults.push(format!(
                "{name}: painted {painted} bytes, but {bytes} computed{}",
                besides(call)
            )),
            Some(painted) if *painted > most => {
                faults.push(format!(
                    "{name}: painted {painted} bytes, of {most} allowed"
                ));
            }
            Some(_) => {}
        }
    }
    let unknown = |name: &&String| computed.iter().all(|call| call.name != name.as_str());
    let unknown = painted.keys().filter(unknown);
    faults.extend(unknown.map(|name| format!("{name}: painted, but not computed")));
    faults
}

/// Each call's figures and bound, and its deepest path.
pub fn table(computed: &[Computed], painted: &Painted) -> String {
    let mut text = format!(
        "{:12} {:>8} {:>8} {:>8}\n",
        "call", "painted", "computed", "at most"
    );
    for Computed { name, bytes, .. } in computed {
        let painted = painted.get(*name).map_or("-".to_string(), u64::to_string);
        let most = bound(name).unwrap_or(0);
        text += &format!("{name:12} {painted:>8} {bytes:>8} {most:>8}\n");
    }
    for call in computed {
        let steps = call
            .path
            .iter()
            .map(|(name, bytes)| format!("{name} {bytes}"));
        let steps: Vec<String> = steps.collect();
        text += &format!("{}: {}{}\n", call.name, steps.join(", "), besides(call));
    }
    text
}

/// What is not counted in a call's computed bytes.
fn besides(call: &Computed) -> String {
    match call.outside.join("'s, ") {
        none if none.is_empty() => none,
        names => format!("; besides {names}'s own"),
    }
}
