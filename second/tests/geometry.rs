//! The geometry table, the ranges, and the words of an empty store.

mod common;

use second::generate::formatted;
use second::geometry::{Geometry, ONES};

#[test]
fn the_rows_of_the_geometry_table() {
    for (text, most, rooms, store, work) in [
        ("4,2,3", 16, vec![1, 1], 152, 64),
        ("21,2,2", 42, vec![2], 206, 128),
        ("10,4,3", 160, vec![3, 8], 752, 512),
        ("64,8,4", 32_768, vec![45, 312, 1561], 123_088, 99_904),
    ] {
        let geometry = common::geometry(text);
        let given: Vec<usize> = (1..geometry.levels())
            .map(|level| geometry.page_room(level))
            .collect();
        assert_eq!(geometry.most(), most, "{text}");
        assert_eq!(given, rooms, "{text}");
        assert_eq!(geometry.store_words(), store, "{text}");
        assert_eq!(geometry.work_words(), work, "{text}");
    }
}

#[test]
fn the_ranges_of_the_geometry() {
    let mut inside = 0;
    for head in 0..70 {
        for ratio in 0..12 {
            for levels in 0..8 {
                inside += usize::from(Geometry::new(head, ratio, levels).is_some());
            }
        }
    }
    assert_eq!(inside, 64 * 7 * 3);
    for (head, ratio, levels) in [
        (0, 2, 2),
        (65, 2, 2),
        (1, 1, 2),
        (1, 9, 2),
        (1, 2, 1),
        (1, 2, 5),
    ] {
        assert_eq!(Geometry::new(head, ratio, levels), None);
    }
}

#[test]
fn the_words_of_an_empty_store() {
    let mut words = vec![4, 2, 3, 0, 1, 1, 0, 0];
    words.extend([1, 0, 0, 2]);
    words.extend([ONES; 12]);
    words.extend([1, 0, 0, 2]);
    words.extend([ONES; 60]);
    words.push(0);
    words.extend([ONES; 63]);
    assert_eq!(formatted(common::geometry("4,2,3")), words);
}
