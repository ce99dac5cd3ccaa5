//! The generator of texts from the forum: what it makes, and what mending must keep to for each of them.

use harness::generate::{original, request, Family};
use harness::mend::{mended, MAX_FORUM};
use harness::own::held;
use harness::text::read;
use std::collections::BTreeMap;

const FAMILY: Family = Family::Forum;

/// Counts what was seen, by name.
#[derive(Default)]
struct Seen(BTreeMap<String, u64>);

impl Seen {
    fn see(&mut self, what: impl Into<String>, so: bool) {
        *self.0.entry(what.into()).or_default() += u64::from(so);
    }
}

#[test]
fn every_text_is_held_to_the_words() {
    for index in 0..FAMILY.count() {
        let seed = FAMILY.seed(index);
        let text = request(FAMILY, seed).text;
        for (what, so) in held(&text, original(FAMILY, seed).as_deref()) {
            assert!(so, "seed {seed}: {what}");
        }
    }
}

#[test]
fn every_sort_of_text_and_of_buffer_comes_up() {
    let mut seen = Seen::default();
    for index in 0..FAMILY.count() {
        let seed = FAMILY.seed(index);
        let request = request(FAMILY, seed);
        let (text, lent) = (&request.text, usize::from(request.lent));
        let known = original(FAMILY, seed);
        let mended = mended(text);
        let needed = mended.text.len();
        for length in [2047, 2048, 2049] {
            seen.see(format!("{length} bytes"), text.len() == length);
        }
        for length in [0, 2048, 2049, 4096] {
            seen.see(format!("lent {length}"), lent == length);
        }
        seen.see("far over the limit", text.len() > 2 * MAX_FORUM);
        seen.see("one byte more than the longest text, no room", (text.len(), needed, lent) == (2048, 2049, 2048));
        seen.see("one byte more than the longest text, room", (text.len(), needed, lent) == (2048, 2049, 2049));
        seen.see("lent one less", lent + 1 == needed);
        seen.see("lent as needed", lent == needed && needed > 0);
        seen.see("lent one more", lent == needed + 1);
        seen.see("nothing left", needed == 0 && !text.is_empty());
        seen.see("no text", text.is_empty());
        seen.see("empty lines", text.windows(2).any(|two| two == b"\n\n"));
        seen.see("several line feeds at the end", text.ends_with(b"\n\n"));
        seen.see("a long line", text.split(|&byte| byte == b'\n').any(|line| line.len() > 1000));
        seen.see("the text alone", !request.codes.is_empty());
        seen.see("any bytes", text.iter().any(|&byte| byte > 127));
        seen.see("accepted", read(text).is_ok());
        seen.see("mended into an accepted one", read(text).is_err() && read(&mended.text).is_ok());
        if let (Some(known), true) = (known, mended.text != *text) {
            // The fault that is not the forum's keeps its number.
            let number = read(&known).err().map_or(0, |refusal| refusal.number);
            seen.see(format!("given back, and refused with {number}"), true);
        }
    }
    let expected = (0..=5).map(|number| format!("given back, and refused with {number}"));
    let rare: Vec<_> = seen.0.iter().filter(|(_, count)| **count < 20).collect();
    assert!(rare.is_empty(), "{rare:?}");
    for what in expected {
        assert!(seen.0.contains_key(&what), "{what} was never seen");
    }
}
