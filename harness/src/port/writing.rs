//! A study as bytes, composed on a page of its own. A field that holds its absent value is not written.
use super::page::Page;
use super::study::*;

/// The bytes of the longest study.
const LONGEST_STUDY: usize = 2023;

type Bytes = Page<LONGEST_STUDY>;

/// 1 where a field is written, 0 where it is not.
fn given(value: u32, absent: u32) -> u8 {
    u8::from(value != absent)
}

fn byte_field(bytes: &mut Bytes, value: u8, absent: u8) {
    if value != absent {
        bytes.push(&[value]);
    }
}

fn word_field(bytes: &mut Bytes, value: u32) {
    if value != 0 {
        bytes.push(&value.to_le_bytes());
    }
}

fn write_component(bytes: &mut Bytes, c: &Component) {
    let [p1, p2, p3] = c.failed;
    let states = given(u32::from(c.states), TWO_STATES.into());
    bytes.push(&[states | given(p1, 0) << 1 | given(p2, 0) << 2 | given(p3, 0) << 3]);
    byte_field(bytes, c.states, TWO_STATES);
    word_field(bytes, p1);
    word_field(bytes, p2);
    word_field(bytes, p3);
}

fn write_tests(bytes: &mut Bytes, g: &Gate) {
    if g.tests == 0 {
        return;
    }
    bytes.push(&[g.tests]);
    for j in 0..usize::from(g.tests) {
        bytes.push(&[g.component[j], g.mask[j]]);
    }
}

fn write_inputs(bytes: &mut Bytes, g: &Gate) {
    if g.gates == 0 {
        return;
    }
    bytes.push(&[g.gates]);
    bytes.push(&g.input[..usize::from(g.gates)]);
}

fn write_gate(bytes: &mut Bytes, g: &Gate) {
    let threshold = given(u32::from(g.threshold), OR.into());
    let tests = given(u32::from(g.tests), 0);
    let gates = given(u32::from(g.gates), 0);
    bytes.push(&[threshold | tests << 1 | gates << 2]);
    byte_field(bytes, g.threshold, OR);
    write_tests(bytes, g);
    write_inputs(bytes, g);
}

fn write_load(bytes: &mut Bytes, l: &Load) {
    let gate = given(u32::from(l.gate), NEVER.into());
    bytes.push(&[gate | given(l.customers, 0) << 1 | given(l.minutes, 0) << 2]);
    byte_field(bytes, l.gate, NEVER);
    word_field(bytes, l.customers);
    word_field(bytes, l.minutes);
}

/// The page of a sound study.
pub fn study_bytes(study: &Study) -> Bytes {
    let mut bytes = Bytes::new();
    bytes.push(&[study.components, study.gates, study.loads]);
    for c in study.components() {
        write_component(&mut bytes, c);
    }
    for g in study.gates() {
        write_gate(&mut bytes, g);
    }
    for l in study.loads() {
        write_load(&mut bytes, l);
    }
    bytes
}
