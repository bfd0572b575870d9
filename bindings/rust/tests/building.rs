//! Volumes that are built from memory.

use adf::{build, Addition, BuildRefusal, Date, Dates, Kind, NotBuilt, Volume};

const DATE: Date = Date { days: 1, mins: 2, ticks: 3 };

fn entries() -> [Addition<'static>; 3] {
    let file = Addition { comment: b"N", protection: 15, date: DATE, ..Addition::default() };
    [
        Addition { path: b"c", ..Addition::default() },
        Addition { path: b"C/list", content: Some(&[7; 600]), ..file },
        Addition { path: b"read", content: Some(b""), ..file },
    ]
}

#[test]
fn what_is_built_is_read() {
    let dates = Dates { created: DATE, ..Dates::default() };
    let image = build(Kind::Ffs, Some(1760), &entries(), b"Work", dates).unwrap();
    let volume = Volume::check(&image).unwrap();
    assert_eq!((volume.kind(), volume.blocks(), volume.created()), (Kind::Ffs, 1760, DATE));
    assert_eq!(volume.label().as_bytes(), b"Work");
    let file = volume.find("c/list").unwrap();
    assert_eq!(volume.entries().count(), 3);
    assert_eq!(file.date(), DATE);
}

#[test]
fn the_smallest_volume_is_built() {
    let image = build(Kind::Ffs, None, &entries(), b"", Dates::default()).unwrap();
    // The root, a page, and 1, 3 and 1 blocks for the entries, and the two boot blocks, and one more: the number is even.
    assert_eq!(image.len(), 512 * 10);
    let full = build(Kind::Ffs, Some(8), &entries(), b"", Dates::default()).unwrap_err();
    assert_eq!(full, NotBuilt { refusal: BuildRefusal::Full, number: 0, need: 7, have: 6 });
    assert_eq!(full.to_string(), "full: need 7, have 6");
}

#[test]
fn international_letters_ignore_the_case_of_all() {
    let twins = [Addition { path: &[0xe9], ..Addition::default() }, Addition { path: &[0xc9], ..Addition::default() }];
    for (number, kind) in [(0, Kind::Ofs), (1, Kind::Ffs), (2, Kind::OfsInternational), (3, Kind::FfsInternational)] {
        let inner = [&twins[..1], &[Addition { path: b"\xe9/a", ..Addition::default() }]].concat();
        let image = build(kind, None, &inner, b"", Dates::default()).unwrap();
        assert_eq!(image[..4], [b'D', b'O', b'S', number]);
        let built = build(kind, None, &twins, b"", Dates::default());
        assert_eq!(
            built.map_err(|fault| (fault.refusal, fault.number)).err(),
            (number >= 2).then_some((BuildRefusal::Exists, 2))
        );
    }
}

#[test]
fn a_fault_names_its_entry() {
    let fault = |path: &'static [u8]| {
        let all = [&entries()[..], &[Addition { path, ..Addition::default() }]].concat();
        build(Kind::Ofs, None, &all, b"", Dates::default()).unwrap_err()
    };
    for (path, refusal) in [
        (&b"x/y"[..], BuildRefusal::NoParent),
        (b"read/y", BuildRefusal::ParentIsFile),
        (b"c/", BuildRefusal::BadName),
        (b"c/LIST", BuildRefusal::Exists),
        (b"/y", BuildRefusal::NoParent),
    ] {
        assert_eq!((fault(path).refusal, fault(path).number), (refusal, 4));
    }
    let long = build(Kind::Ofs, None, &[], &[65; 31], Dates::default()).unwrap_err();
    assert_eq!(long.refusal, BuildRefusal::BadLabel);
}
