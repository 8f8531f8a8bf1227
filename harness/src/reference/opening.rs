//! Opening: the fields from left to right, and the first breach met; then the inputs of each gate in order.
use super::refusals::*;
use super::study::*;

/// The bytes that are not read yet.
struct Unread<'a>(&'a [u8]);

impl Unread<'_> {
    fn byte(&mut self) -> Result<u8, u8> {
        let (&byte, rest) = self.0.split_first().ok_or(SHORT)?;
        self.0 = rest;
        Ok(byte)
    }

    fn number(&mut self) -> Result<u32, u8> {
        let (&four, rest) = self.0.split_first_chunk::<4>().ok_or(SHORT)?;
        self.0 = rest;
        Ok(u32::from_le_bytes(four))
    }

    /// One of the first three bytes.
    fn count(&mut self, most: usize) -> Result<usize, u8> {
        let count = usize::from(self.byte()?);
        unless((1..=most).contains(&count), COUNTS)?;
        Ok(count)
    }

    /// A map of which only the lowest bits may stand: for each of these, whether it does.
    fn map<const BITS: usize>(&mut self) -> Result<[bool; BITS], u8> {
        let map = self.byte()?;
        unless(map >> BITS == 0, STRAY_BIT)?;
        Ok(std::array::from_fn(|bit| map & (1 << bit) != 0))
    }

    /// How many tests or gate inputs follow.
    fn inputs(&mut self, most: usize) -> Result<usize, u8> {
        let count = usize::from(self.byte()?);
        unless((1..=most).contains(&count), INPUTS)?;
        Ok(count)
    }

    /// A number of customers or minutes.
    fn size(&mut self, most: u32) -> Result<u32, u8> {
        let size = self.number()?;
        unless(size <= most, LOAD_SIZE)?;
        Ok(size)
    }
}

/// Reads a component, the one behind those given.
fn component(unread: &mut Unread, before: &[Component]) -> Result<Component, u8> {
    let map = unread.map::<4>()?;
    let mut states = 2;
    if map[0] {
        states = unread.byte()?;
        unless((2..=4).contains(&states), STATES)?;
    }
    let mut failed = [0; 3];
    for state in 1..=3 {
        if map[state] {
            // Whatever the number is, and before it is read.
            unless(state < usize::from(states), NO_STATE)?;
            failed[state - 1] = unread.number()?;
        }
    }
    unless(Component::failed_together(failed) <= ONE, OVER_ONE)?;
    let joint_states = joint_state_count(before) * usize::from(states);
    unless(joint_states <= MOST_JOINT_STATES, TOO_WIDE)?;
    Ok(Component { states, failed })
}

fn test(unread: &mut Unread, components: &[Component]) -> Result<Test, u8> {
    let component = unread.byte()?;
    let tested = components.get(usize::from(component)).ok_or(NO_COMPONENT)?;
    let mask = unread.byte()?;
    unless(mask_fits(mask, tested.states), MASK)?;
    Ok(Test { component, mask })
}

/// Reads the gate with this number; its threshold is not judged yet.
fn gate(unread: &mut Unread, components: &[Component], own: usize) -> Result<Gate, u8> {
    let map = unread.map::<3>()?;
    let mut gate = Gate {
        threshold: 1,
        tests: Vec::new(),
        gates: Vec::new(),
    };
    if map[0] {
        gate.threshold = unread.byte()?;
    }
    if map[1] {
        for _ in 0..unread.inputs(MOST_TESTS)? {
            gate.tests.push(test(unread, components)?);
        }
    }
    if map[2] {
        for _ in 0..unread.inputs(MOST_GATE_INPUTS)? {
            let input = unread.byte()?;
            unless(usize::from(input) < own, GATE_AHEAD)?;
            gate.gates.push(input);
        }
    }
    Ok(gate)
}

fn load(unread: &mut Unread, gates: usize) -> Result<Load, u8> {
    let map = unread.map::<3>()?;
    let mut load = Load {
        gate: None,
        customers: 0,
        minutes: 0,
    };
    if map[0] {
        let gate = unread.byte()?;
        unless(usize::from(gate) < gates, NO_GATE)?;
        load.gate = Some(gate);
    }
    if map[1] {
        load.customers = unread.size(MOST_CUSTOMERS)?;
    }
    if map[2] {
        load.minutes = unread.size(MOST_MINUTES)?;
    }
    Ok(load)
}

/// Reads all bytes into an empty study, record by record, up to the first breach.
fn read(bytes: &[u8], study: &mut Study) -> Result<(), u8> {
    let mut unread = Unread(bytes);
    let component_count = unread.count(MOST_COMPONENTS)?;
    let gate_count = unread.count(MOST_GATES)?;
    let load_count = unread.count(MOST_LOADS)?;
    for _ in 0..component_count {
        let next = component(&mut unread, &study.components)?;
        study.components.push(next);
    }
    for own in 0..gate_count {
        let next = gate(&mut unread, &study.components, own)?;
        let fits = next.threshold_fits();
        study.gates.push(next);
        unless(fits, THRESHOLD)?;
    }
    for _ in 0..load_count {
        study.loads.push(load(&mut unread, gate_count)?);
    }
    unless(unread.0.is_empty(), LEFT_OVER)
}

/// What was read of a study, as the bytes give it, and the first breach; where that is a threshold, the last gate has it.
pub fn read_so_far(bytes: &[u8]) -> (Study, Result<(), u8>) {
    let mut study = Study {
        components: Vec::new(),
        gates: Vec::new(),
        loads: Vec::new(),
    };
    let judged = read(bytes, &mut study);
    (study, judged)
}

/// The study that the bytes open to, or the number of the first breach.
pub fn open(bytes: &[u8]) -> Result<Study, u8> {
    let (mut study, judged) = read_so_far(bytes);
    judged?;
    for gate in &mut study.gates {
        gate.tests.sort();
        gate.gates.sort();
    }
    Ok(study)
}
