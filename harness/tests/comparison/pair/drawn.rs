//! Trees that are drawn from gates: the library says of them what it says of the gates.
use super::Pair;
use harness::asked::Asked;
use harness::generate::{drawn, Random, Style};
use harness::reference::study::Study;
use harness::studies::to_hexadecimal;

impl Pair<'_> {
    /// Draws the gates of a sound image twice, in an order of components that is another each time: reduced, and with more questions than it takes.
    pub fn draw_gates(&mut self, random: &mut Random, image: &[u8], study: &Study) {
        let by_gates = Asked { image, tree: None }.everything();
        let more = random.pick(&[Style::Needless, Style::Deepest]);
        for style in [Style::Reduced, more] {
            let tree = drawn(random, study, style);
            let by_tree = Asked {
                image,
                tree: Some(&tree),
            };
            assert!(
                by_tree.everything() == by_gates,
                "seed {}: study {} and its tree {} differ",
                self.seed,
                to_hexadecimal(self.bytes),
                to_hexadecimal(&tree)
            );
            self.tally.drawn_gates += 1;
        }
    }
}
