//! Prints a key, and the time macros of a stream in two pieces. `build.sh` builds and runs it.
mod cck;

use cck::{Finder, KeyError, KeyParams, strip_text};
use std::borrow::Cow;

fn main() {
    let params = KeyParams {
        compiler_digest: "abcd",
        language: "c",
        arguments: &[b"a", b"b", b"c"],
        text: b"hello world",
        ..KeyParams::default()
    };
    println!("key {}", params.key().expect("a key"));
    let unknown = KeyParams {
        language: "d",
        ..params
    };
    assert_eq!(unknown.key(), Err(KeyError::Language));

    let checkouts: &[&[u8]] = &[b"/one/", b"/two/"];
    let one = KeyParams {
        basedirs: checkouts,
        arguments: &[b"-I/one/include"],
        ..params
    };
    let two = KeyParams {
        arguments: &[b"-I/two/include"],
        ..one
    };
    println!("two checkouts share a key: {}", one.key() == two.key());

    let text = strip_text(b"# 1 \"/one/a.c\"", checkouts).expect("memory");
    println!("text {}", String::from_utf8_lossy(&text));
    let text = strip_text(b"# 1 \"/three/a.c\"", checkouts).expect("memory");
    println!("unchanged: {}", matches!(text, Cow::Borrowed(_)));

    let mut finder = Finder::default();
    finder.push(b"char *t = __TIMEST");
    finder.push(b"AMP__;");
    println!("time, date, timestamp: {:?}", finder.found());
}
