//! Opens a study: bytes to places, or the number of the first breach. The inputs of a gate are put in order once all of them are read.
use super::ordering::put_in_order;
use super::soundness::threshold_fits;
use super::study::*;

struct Reader<'a> {
    bytes: &'a [u8],
    at: usize,
}

impl Reader<'_> {
    fn byte(&mut self) -> Result<u8, u8> {
        let byte = *self.bytes.get(self.at).ok_or(1)?;
        self.at += 1;
        Ok(byte)
    }

    fn word(&mut self) -> Result<u32, u8> {
        let four = self.bytes.get(self.at..self.at + 4).ok_or(1)?;
        self.at += 4;
        Ok(u32::from_le_bytes(four.try_into().expect("four bytes")))
    }

    /// A byte of 1 to `most`, or the refusal.
    fn count(&mut self, most: usize, refusal: u8) -> Result<u8, u8> {
        let count = self.byte()?;
        if count == 0 || usize::from(count) > most {
            return Err(refusal);
        }
        Ok(count)
    }

    fn map(&mut self, bits: u8) -> Result<u8, u8> {
        let map = self.byte()?;
        if map >> bits != 0 {
            return Err(3);
        }
        Ok(map)
    }

    fn size(&mut self, most: u32) -> Result<u32, u8> {
        let size = self.word()?;
        if size > most {
            return Err(14);
        }
        Ok(size)
    }
}

fn bit(map: u8, k: u8) -> bool {
    map >> k & 1 == 1
}

fn read_component(reader: &mut Reader, component: &mut Component) -> Result<(), u8> {
    let map = reader.map(4)?;
    component.states = TWO_STATES;
    if bit(map, 0) {
        component.states = reader.byte()?;
        if !(2..=4).contains(&component.states) {
            return Err(4);
        }
    }
    for state in 1..4 {
        if bit(map, state) {
            if state >= component.states {
                return Err(5);
            }
            component.failed[usize::from(state) - 1] = reader.word()?;
        }
    }
    let sum: u64 = component.failed.iter().map(|&p| u64::from(p)).sum();
    if sum > ONE {
        return Err(6);
    }
    Ok(())
}

fn read_components(reader: &mut Reader, study: &mut Study) -> Result<(), u8> {
    let mut joint = 1;
    for component in &mut study.component[..usize::from(study.components)] {
        read_component(reader, component)?;
        joint *= usize::from(component.states);
        if joint > MOST_JOINT_STATES {
            return Err(7);
        }
    }
    Ok(())
}

fn read_tests(reader: &mut Reader, counts: &[u8], gate: &mut Gate) -> Result<(), u8> {
    gate.tests = reader.count(TEST_PLACES, 8)?;
    for j in 0..usize::from(gate.tests) {
        let component = reader.byte()?;
        let states = *counts.get(usize::from(component)).ok_or(9)?;
        let mask = reader.byte()?;
        if mask == 0 || mask >> states != 0 {
            return Err(10);
        }
        gate.component[j] = component;
        gate.mask[j] = mask;
    }
    Ok(())
}

fn read_inputs(reader: &mut Reader, own: usize, gate: &mut Gate) -> Result<(), u8> {
    gate.gates = reader.count(INPUT_PLACES, 8)?;
    for place in &mut gate.input[..usize::from(gate.gates)] {
        *place = reader.byte()?;
        if usize::from(*place) >= own {
            return Err(11);
        }
    }
    Ok(())
}

fn read_gate(reader: &mut Reader, counts: &[u8], own: usize, gate: &mut Gate) -> Result<(), u8> {
    let map = reader.map(3)?;
    gate.threshold = OR;
    if bit(map, 0) {
        gate.threshold = reader.byte()?;
    }
    if bit(map, 1) {
        read_tests(reader, counts, gate)?;
    }
    if bit(map, 2) {
        read_inputs(reader, own, gate)?;
    }
    put_in_order(gate);
    if !threshold_fits(gate) {
        return Err(12);
    }
    Ok(())
}

fn read_load(reader: &mut Reader, gates: u8, load: &mut Load) -> Result<(), u8> {
    let map = reader.map(3)?;
    load.gate = NEVER;
    if bit(map, 0) {
        load.gate = reader.byte()?;
        if load.gate >= gates {
            return Err(13);
        }
    }
    if bit(map, 1) {
        load.customers = reader.size(MOST_CUSTOMERS)?;
    }
    if bit(map, 2) {
        load.minutes = reader.size(MOST_MINUTES)?;
    }
    Ok(())
}

pub fn open(bytes: &[u8]) -> Result<Study, u8> {
    let reader = &mut Reader { bytes, at: 0 };
    let mut study = Study {
        components: reader.count(COMPONENT_PLACES, 2)?,
        gates: reader.count(GATE_PLACES, 2)?,
        loads: reader.count(LOAD_PLACES, 2)?,
        ..Study::default()
    };
    read_components(reader, &mut study)?;
    let counts = study.state_counts();
    let counts = &counts[..usize::from(study.components)];
    for (own, gate) in study.gate[..usize::from(study.gates)]
        .iter_mut()
        .enumerate()
    {
        read_gate(reader, counts, own, gate)?;
    }
    for load in &mut study.load[..usize::from(study.loads)] {
        read_load(reader, study.gates, load)?;
    }
    if reader.at < bytes.len() {
        return Err(15);
    }
    Ok(study)
}
