//! The fixed list, and the images it is made of.

use oracle::image::Image;
use oracle::list::list;
use oracle::random::Random;
use oracle::store::Store;
use std::collections::BTreeSet;

#[test]
fn an_image_goes_through_the_rust_unchanged() {
    let mut random = Random::new(2);
    for made in [Random::orderly, Random::disorderly].repeat(100) {
        let bytes = made(&mut random);
        let image = Image::read(&bytes).unwrap();
        assert_eq!(image.write(), bytes);
        assert_eq!(Store::from_image(&image).unwrap().to_image(), image);
    }
}

#[test]
fn the_list_is_small_and_asks_for_everything() {
    let list = list();
    let reads: Vec<&String> = list.reads.iter().filter(|line| !line.starts_with('#')).collect();
    assert!((400..=600).contains(&reads.len()), "{} reads", reads.len());
    assert!(reads.iter().all(|line| line.rsplit(' ').next().unwrap().len() <= 800));

    let mut seen = BTreeSet::new();
    for line in list.answers.iter().filter(|line| !line.starts_with('#')) {
        let (read, answer) = line.split_once(" = ").unwrap();
        let sort = if answer.starts_with("refused") || answer == "none" { answer } else { "found" };
        seen.insert(format!("{} {sort}", read.split(' ').next().unwrap()));
    }
    for call in ["exists", "type", "child", "attr", "list", "link", "parent", "xattr", "names"] {
        assert!(seen.contains(&format!("{call} found")) && seen.contains(&format!("{call} refused 2")), "{call}");
        assert!(call == "exists" || seen.contains(&format!("{call} none")), "{call}");
    }
    for refused in ["child refused 3", "xattr refused 3", "list refused 5", "names refused 5"] {
        assert!(seen.contains(refused), "{refused}");
    }
}
