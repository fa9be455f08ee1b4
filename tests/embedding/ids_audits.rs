//! What `virtiofs_map_audits.rs` passes on of lists of specifications, and what it makes of the answers. What is wanted
//! is worked out by hand from the documentation.

#[path = "../../bindings/rust/virtiofs_map.rs"]
mod virtiofs_map;
#[path = "../../bindings/rust/virtiofs_map_audits.rs"]
mod virtiofs_map_audits;

use std::io::ErrorKind;
use virtiofs_map::soft_idmap::{cmdline::IdMap as Spec, BuildError};
use virtiofs_map_audits::{comes_back, ids_apart, is_alone, reaches, Astray, IdAudit::*, Reaching, Shared};

const RANGE: &str = "map:0:100000:65536";
const ALL_OF_IT: &str = "map:0:100000:65536 forbid-guest:65536:4294901759";
const NEXT_RANGE: &str = "map:0:165536:65536 forbid-guest:65536:4294901759";

#[test]
fn answers() {
    assert_eq!(comes_back(&specs(ALL_OF_IT)).unwrap(), Yes);
    assert_eq!(comes_back(&specs("squash-host:7:9:3")).unwrap(), No(Astray { guest: 7, host: 7, back: 9 }));
    assert_eq!(comes_back(&specs("squash-guest:5:4:1")).unwrap(), No(Astray { guest: 5, host: 4, back: 4 }));
    assert_eq!(is_alone(&specs(ALL_OF_IT)).unwrap(), Yes);
    assert_eq!(is_alone(&specs("guest:9:5:1")).unwrap(), No(Shared { guest: 5, other: 9, host: 5 }));
    assert_eq!(reaches(&specs(ALL_OF_IT), 165536, u32::MAX).unwrap(), None);
    assert_eq!(reaches(&specs(RANGE), 165535, 165536).unwrap(), Some(Reaching { guest: 65535, host: 165535 }));
    assert_eq!(ids_apart(&specs(ALL_OF_IT), &specs(NEXT_RANGE)).unwrap(), Yes);
    let shared = Shared { guest: 0, other: 165536, host: 165536 };
    assert_eq!(ids_apart(&specs(NEXT_RANGE), &specs(RANGE)).unwrap(), No(shared));
}

#[test]
fn lists_that_are_refused() {
    let (bad, met) = (specs("host:4294967294:0:2"), specs("guest:0:100:10 forbid-guest:9:1"));
    for (error, place) in [
        (comes_back(&bad).unwrap_err(), 0),
        (is_alone(&bad).unwrap_err(), 0),
        (reaches(&bad, 0, 9).unwrap_err(), 0),
        (ids_apart(&bad, &met).unwrap_err(), 0),
        (ids_apart(&specs(RANGE), &bad).unwrap_err(), 1),
    ] {
        let text = "Parameter host:4294967294:0:2: Range overflow";
        assert_eq!((error.kind(), error.to_string().as_str()), (ErrorKind::InvalidInput, text));
        let held = error.get_ref().and_then(|it| it.downcast_ref::<BuildError>());
        assert_eq!(held.map(|it| it.place), Some(place));
    }
}

/// The specifications of a text, with a blank between each two.
fn specs(text: &str) -> Vec<Spec> {
    text.split_whitespace().map(|it| it.parse().expect("a specification")).collect()
}
