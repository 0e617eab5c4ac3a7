//! Calls on different areas may run at the same time: nothing is kept between calls.

use compare::damage::Damage;
use compare::lists::Lists;
use std::thread;

#[test]
fn lists_and_damaged_benches_at_the_same_time() {
    let lists = [1, 1, 2].map(|seed| {
        thread::spawn(move || {
            let mut lists = Lists::new(seed);
            (0..40).try_for_each(|_| lists.play(400)).map(|()| lists.both.lent.octets().to_vec())
        })
    });
    let damage = thread::spawn(|| {
        let mut damage = Damage::new(3);
        (0..15).try_for_each(|_| damage.round())
    });
    damage.join().unwrap().unwrap();
    let [one, same, other] = lists.map(|list| list.join().unwrap().unwrap());
    assert_eq!(one, same, "the same calls leave the same octets");
    assert_ne!(one, other);
}
