//! Bytes of a study together with what each byte is, so that damage can be aimed.

/// What a byte is. Of a number of four bytes the lowest is named, and the others stand behind.
#[derive(Clone, Copy, Debug, PartialEq)]
pub enum Role {
    ComponentCount,
    GateCount,
    LoadCount,
    /// The map of a component with so many states.
    ComponentMap {
        states: u8,
    },
    StateCount,
    Probability,
    GateMap,
    /// The threshold of a gate in which so many inputs stand, of which so many count.
    Threshold {
        standing: u8,
        distinct: u8,
    },
    TestCount,
    TestComponent,
    /// The mask of a test of a component with so many states.
    TestMask {
        states: u8,
    },
    InputCount,
    /// An input of the gate with this number.
    Input {
        own: u8,
    },
    LoadMap,
    LossGate,
    Customers,
    Minutes,
    Behind,
}

/// The bytes, and the role of each.
#[derive(Clone, Default)]
pub struct Draft {
    pub bytes: Vec<u8>,
    pub roles: Vec<Role>,
}

impl Draft {
    pub fn byte(&mut self, role: Role, value: u8) {
        self.bytes.push(value);
        self.roles.push(role);
    }

    pub fn number(&mut self, role: Role, value: u32) {
        self.bytes.extend(value.to_le_bytes());
        self.roles
            .extend([role, Role::Behind, Role::Behind, Role::Behind]);
    }

    /// Tests, components beside masks, behind their count.
    pub fn tests(&mut self, state_counts: &[u8], tests: &[(u8, u8)]) {
        self.byte(Role::TestCount, tests.len() as u8);
        for &(component, mask) in tests {
            let states = state_counts[usize::from(component)];
            self.byte(Role::TestComponent, component);
            self.byte(Role::TestMask { states }, mask);
        }
    }

    /// Inputs of the gate with this number, behind their count.
    pub fn gate_inputs(&mut self, own: u8, inputs: &[u8]) {
        self.byte(Role::InputCount, inputs.len() as u8);
        for &input in inputs {
            self.byte(Role::Input { own }, input);
        }
    }

    /// The places of the bytes whose role is wanted.
    pub fn places(&self, wanted: impl Fn(Role) -> bool) -> Vec<usize> {
        let all = 0..self.bytes.len();
        all.filter(|&at| wanted(self.roles[at])).collect()
    }

    /// The bytes in front of a place.
    pub fn cut(&mut self, at: usize) {
        self.bytes.truncate(at);
        self.roles.truncate(at);
    }
}
