//! pest's `Stack` against document 01's words on it: a list, and checkpoints that remember it.

use compare::rng::Rng;
use reference::shown::Shown;

/// Content at the checkpoint, and the lowest height while it was innermost.
struct Checkpoint {
    content: Vec<u32>,
    lowest: usize,
}

#[derive(Default)]
struct Model {
    content: Vec<u32>,
    checkpoints: Vec<Checkpoint>,
}

impl Model {
    fn pop(&mut self) -> Option<u32> {
        let top = self.content.pop();
        if let Some(innermost) = self.checkpoints.last_mut() {
            innermost.lowest = innermost.lowest.min(self.content.len());
        }
        top
    }

    fn snapshot(&mut self) {
        let content = self.content.clone();
        self.checkpoints.push(Checkpoint { lowest: content.len(), content });
    }

    fn clear_snapshot(&mut self) {
        if let Some(inner) = self.checkpoints.pop() {
            if let Some(outer) = self.checkpoints.last_mut() {
                outer.lowest = outer.lowest.min(inner.lowest);
            }
        }
    }

    /// Without a checkpoint it empties the stack.
    fn restore(&mut self) {
        self.content = self.checkpoints.pop().map(|inner| inner.content).unwrap_or_default();
    }

    fn debt(&self) -> usize {
        self.checkpoints.iter().map(|one| one.content.len() - one.lowest).sum()
    }
}

#[test]
fn pests_stack_is_a_list_with_checkpoints() {
    let mut rng = Rng::new(1);
    for _ in 0..4_000 {
        let mut pest = pest::Stack::new();
        let mut model = Model::default();
        for step in 0..60 {
            match rng.below(8) {
                0..=2 => {
                    pest.push(step);
                    model.content.push(step);
                }
                3 | 4 => assert_eq!(pest.pop(), model.pop()),
                5 => {
                    pest.snapshot();
                    model.snapshot();
                }
                6 => {
                    pest.clear_snapshot();
                    model.clear_snapshot();
                }
                _ => {
                    pest.restore();
                    model.restore();
                }
            }
            assert_eq!(pest[0..pest.len()], model.content[..]);
            let shown = format!("{pest:?}");
            let shown = Shown::new(&shown);
            assert_eq!(shown.field("popped").count(), model.debt());
            assert_eq!(shown.field("lengths").count(), model.checkpoints.len());
        }
    }
}
