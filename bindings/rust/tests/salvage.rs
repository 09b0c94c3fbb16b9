//! R350 to R354: where a walk may go on. The texts of tests/vectors/W9, with what an independent implementation copies of them and leaves out; and
//! every text, whose copy stays what it is.

mod common;

use common::{all_rules, all_texts, bytes, s};
use seambeacon::{Placing, Refusal, Rules};

/// R353: what is copied of a text, and the place and the length of each stretch that is left out.
fn salvaged(rules: Rules, text: &[u8]) -> (Vec<u8>, Vec<(usize, usize)>) {
    let (mut copy, mut stretches, mut at) = (Vec::new(), Vec::new(), 0);
    loop {
        let next = match seambeacon::place(rules, text, at) {
            Ok(record) => {
                let (Placing::Placed { next } | Placing::Broken { next, .. }) = record.placing;
                copy.extend_from_slice(&text[at..next]);
                next
            }
            Err(Refusal::End) => return (copy, stretches),
            Err(_) => {
                let end = seambeacon::stretch_end(rules, text, at).expect("a place inside the text");
                stretches.push((at, end - at));
                end
            }
        };
        assert!(at < next && next <= text.len(), "a walk goes forward");
        at = next;
    }
}

#[test]
fn texts_are_salvaged() {
    let mut lost = 0;
    for number in 0..85 {
        let file = |kind: &str| bytes(&format!("tests/vectors/W9/{number:05}.{kind}"));
        let text = file("sao");
        if text.len() <= 65_536 {
            let (copy, stretches) = salvaged(Rules::default(), &text);
            let told: String = stretches.iter().map(|(place, length)| format!("{place} {length}\n")).collect();
            assert_eq!((copy, told.into_bytes()), (file("salvage"), file("stretches")), "{number}");
            lost += stretches.len();
        }
    }
    assert!(lost >= 80, "{lost} stretches");
}

#[test]
fn what_is_copied_stays() {
    for text in all_texts() {
        for rules in all_rules() {
            let (copy, stretches) = salvaged(rules, &text);
            assert_eq!(copy.len() + stretches.iter().map(|stretch| stretch.1).sum::<usize>(), text.len());
            assert!(stretches.windows(2).all(|pair| pair[0].0 + pair[0].1 < pair[1].0), "no two are neighbours");
            assert_eq!(salvaged(rules, &copy), (copy, Vec::new()));
        }
    }
}

#[test]
fn any_place_may_be_asked_about() {
    let twice = [s(), s()].concat();
    for rules in all_rules() {
        for (at, due) in [(0, Ok(305)), (304, Ok(305)), (305, Ok(610)), (610, Err(Refusal::End)), (usize::MAX, Err(Refusal::Beyond))] {
            assert_eq!(seambeacon::stretch_end(rules, &twice, at), due, "{at}");
        }
        assert_eq!(seambeacon::stretch_end(rules, b"", 0), Err(Refusal::End));
        assert_eq!(seambeacon::stretch_end(rules, b"\n\n", 0), Ok(2));
    }
}
