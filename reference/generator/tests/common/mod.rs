//! The files of one scene, and the cells that they meet.

use generator::coverage::Tally;
use generator::random::Random;
use generator::walk::Walk;

pub type Scene = fn(&mut Random) -> Walk;

pub fn files(scene: Scene, count: u64) -> impl Iterator<Item = Vec<u8>> {
    (0..count).map(move |number| scene(&mut Random::new(1, number)).bytes)
}

/// So many cells, and 400 files of the scene meet each.
pub fn meets_all(scene: Scene, cells: &[String], number: usize) {
    let mut tally = Tally::default();
    files(scene, 400).for_each(|file| tally.add(&file));
    for cell in cells {
        assert!(tally.count(cell) > 0, "never met: {cell}");
    }
    assert_eq!(cells.len(), number);
}
