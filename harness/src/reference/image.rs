//! The image of an opened study: written from its fields, and read back where it is sound.
use super::study::*;

/// The bytes of an image: three counts, and every place of components, gates and loads.
pub const IMAGE_BYTES: usize = 2087;

const COMPONENTS_FROM: usize = 3;
const COMPONENT_BYTES: usize = 13;
const GATES_FROM: usize = 159;
const GATE_BYTES: usize = 58;
const LOADS_FROM: usize = 2015;
const LOAD_BYTES: usize = 9;

/// The loss gate of a load that is never lost.
const NEVER: u8 = 255;

fn component_bytes(c: &Component) -> Vec<u8> {
    let mut bytes = vec![c.states];
    for p in c.failed {
        bytes.extend(p.to_le_bytes());
    }
    bytes
}

fn gate_bytes(g: &Gate) -> Vec<u8> {
    let mut bytes = vec![0; GATE_BYTES];
    bytes[0] = g.threshold;
    bytes[1] = g.tests.len() as u8;
    for (j, test) in g.tests.iter().enumerate() {
        bytes[2 + j] = test.component;
        bytes[14 + j] = test.mask;
    }
    bytes[26] = g.gates.len() as u8;
    bytes[27..27 + g.gates.len()].copy_from_slice(&g.gates);
    bytes
}

fn load_bytes(l: &Load) -> Vec<u8> {
    let mut bytes = vec![l.gate.unwrap_or(NEVER)];
    bytes.extend(l.customers.to_le_bytes());
    bytes.extend(l.minutes.to_le_bytes());
    bytes
}

/// The image of a study; places that no record uses hold 0.
pub fn write(study: &Study) -> Vec<u8> {
    let mut image = vec![
        study.components.len() as u8,
        study.gates.len() as u8,
        study.loads.len() as u8,
    ];
    image.extend(study.components.iter().flat_map(component_bytes));
    image.resize(GATES_FROM, 0);
    image.extend(study.gates.iter().flat_map(gate_bytes));
    image.resize(LOADS_FROM, 0);
    image.extend(study.loads.iter().flat_map(load_bytes));
    image.resize(IMAGE_BYTES, 0);
    image
}

fn number(bytes: &[u8]) -> u32 {
    u32::from_le_bytes([bytes[0], bytes[1], bytes[2], bytes[3]])
}

fn all_zero(bytes: &[u8]) -> bool {
    bytes.iter().all(|&byte| byte == 0)
}

/// Where a rule is broken, there is no study to read.
fn rule(kept: bool) -> Option<()> {
    kept.then_some(())
}

fn read_component(place: &[u8]) -> Option<Component> {
    let states = place[0];
    let failed = [
        number(&place[1..5]),
        number(&place[5..9]),
        number(&place[9..13]),
    ];
    rule((2..=4).contains(&states))?;
    rule((usize::from(states)..=3).all(|lacking| failed[lacking - 1] == 0))?;
    rule(Component::failed_together(failed) <= ONE)?;
    Some(Component { states, failed })
}

fn read_tests(place: &[u8], components: &[Component]) -> Option<Vec<Test>> {
    let count = usize::from(place[1]);
    let (component, mask) = (&place[2..14], &place[14..26]);
    rule(count <= MOST_TESTS)?;
    rule(all_zero(&component[count..]) && all_zero(&mask[count..]))?;
    let mut tests = Vec::new();
    for j in 0..count {
        let tested = components.get(usize::from(component[j]))?;
        rule(mask_fits(mask[j], tested.states))?;
        tests.push(Test {
            component: component[j],
            mask: mask[j],
        });
    }
    Some(tests)
}

fn read_gate(place: &[u8], own: usize, components: &[Component]) -> Option<Gate> {
    let tests = read_tests(place, components)?;
    let count = usize::from(place[26]);
    let inputs = &place[27..58];
    rule(count <= MOST_GATE_INPUTS)?;
    rule(all_zero(&inputs[count..]))?;
    let gates = inputs[..count].to_vec();
    rule(gates.iter().all(|&input| usize::from(input) < own))?;
    Some(Gate {
        threshold: place[0],
        tests,
        gates,
    })
}

fn read_load(place: &[u8], gates: usize) -> Option<Load> {
    let gate = match place[0] {
        NEVER => None,
        gate => Some(gate),
    };
    let customers = number(&place[1..5]);
    let minutes = number(&place[5..9]);
    rule(gate.is_none_or(|gate| usize::from(gate) < gates))?;
    rule(customers <= MOST_CUSTOMERS && minutes <= MOST_MINUTES)?;
    Some(Load {
        gate,
        customers,
        minutes,
    })
}

/// The study that an image holds, unless a rule is broken or a place that no record uses holds something; its gates may have any threshold, and their
/// inputs in any order.
pub fn held(image: &[u8]) -> Option<Study> {
    let image = image.get(..IMAGE_BYTES)?;
    let counts = [image[0], image[1], image[2]].map(usize::from);
    rule((1..=MOST_COMPONENTS).contains(&counts[0]))?;
    rule((1..=MOST_GATES).contains(&counts[1]))?;
    rule((1..=MOST_LOADS).contains(&counts[2]))?;
    let component_places = image[COMPONENTS_FROM..GATES_FROM].split_at(counts[0] * COMPONENT_BYTES);
    let gate_places = image[GATES_FROM..LOADS_FROM].split_at(counts[1] * GATE_BYTES);
    let load_places = image[LOADS_FROM..].split_at(counts[2] * LOAD_BYTES);
    rule(all_zero(component_places.1) && all_zero(gate_places.1) && all_zero(load_places.1))?;
    let records = component_places.0.chunks(COMPONENT_BYTES);
    let components: Vec<Component> = records.map(read_component).collect::<Option<_>>()?;
    rule(joint_state_count(&components) <= MOST_JOINT_STATES)?;
    let records = gate_places.0.chunks(GATE_BYTES).enumerate();
    let gates = records
        .map(|(own, place)| read_gate(place, own, &components))
        .collect::<Option<_>>()?;
    let records = load_places.0.chunks(LOAD_BYTES);
    let loads = records
        .map(|place| read_load(place, counts[1]))
        .collect::<Option<_>>()?;
    Some(Study {
        components,
        gates,
        loads,
    })
}

/// The study that an image holds, unless a rule is broken that is not the one of order.
pub fn read_in_any_order(image: &[u8]) -> Option<Study> {
    let study = held(image)?;
    rule(study.gates.iter().all(Gate::threshold_fits))?;
    Some(study)
}

/// The study of a sound image.
pub fn read(image: &[u8]) -> Option<Study> {
    let study = read_in_any_order(image)?;
    rule(study.gates.iter().all(Gate::is_in_order))?;
    Some(study)
}
