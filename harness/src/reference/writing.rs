//! Writing: a study as bytes. A field that holds what it means when it is absent is not written.
use super::study::*;

/// The bytes of a field, or None where it is absent.
type Field = Option<Vec<u8>>;

fn byte(value: u8, absent: u8) -> Field {
    (value != absent).then(|| vec![value])
}

fn number(value: u32) -> Field {
    (value != 0).then(|| value.to_le_bytes().to_vec())
}

/// Inputs of a kind, behind their count.
fn inputs(count: usize, listed: Vec<u8>) -> Field {
    (count != 0).then(|| [vec![count as u8], listed].concat())
}

/// A record: its map, in which the bit of each field that is there stands, then these fields.
fn record(fields: &[Field]) -> Vec<u8> {
    let mut map = 0;
    let mut bytes = Vec::new();
    for (bit, field) in fields.iter().enumerate() {
        if let Some(given) = field {
            map |= 1 << bit;
            bytes.extend(given);
        }
    }
    [vec![map], bytes].concat()
}

fn component(c: &Component) -> Vec<u8> {
    let [p1, p2, p3] = c.failed;
    record(&[byte(c.states, 2), number(p1), number(p2), number(p3)])
}

fn gate(g: &Gate) -> Vec<u8> {
    let tests = g.tests.iter().flat_map(|test| [test.component, test.mask]);
    record(&[
        byte(g.threshold, 1),
        inputs(g.tests.len(), tests.collect()),
        inputs(g.gates.len(), g.gates.clone()),
    ])
}

fn load(l: &Load) -> Vec<u8> {
    let gate = l.gate.map(|gate| vec![gate]);
    record(&[gate, number(l.customers), number(l.minutes)])
}

/// The bytes of a study.
pub fn write(study: &Study) -> Vec<u8> {
    let mut bytes = vec![
        study.components.len() as u8,
        study.gates.len() as u8,
        study.loads.len() as u8,
    ];
    bytes.extend(study.components.iter().flat_map(component));
    bytes.extend(study.gates.iter().flat_map(gate));
    bytes.extend(study.loads.iter().flat_map(load));
    bytes
}
