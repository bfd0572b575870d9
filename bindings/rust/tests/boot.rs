//! Boot blocks.

use adf::{build, with_boot, with_standard_boot, without_boot, Boot, BootRefusal, Dates, Kind, Volume};

fn empty(kind: Kind) -> Vec<u8> {
    build(kind, Some(1760), &[], b"", Dates::default()).unwrap()
}

#[test]
fn the_standard_boot_blocks_are_told() {
    let image = empty(Kind::Ofs);
    let boot = Volume::check(&image).unwrap().boot().unwrap();
    assert_eq!((boot.is_bootable(), boot.has_code(), boot.begins_with_dos(), boot.has_right_sum()), (false, false, true, false));
    let image = with_standard_boot(&image).unwrap();
    let boot = Volume::check(&image).unwrap().boot().unwrap();
    // The checksum and the CRC are those that Python computes of the bytes.
    assert_eq!((&boot.as_bytes()[4..12], boot.crc()), (&[0xD2, 0xA5, 0x0F, 0x19, 0, 0, 3, 0x70][..], 0x0126_1547));
    assert_eq!((boot.is_bootable(), boot.has_code(), boot.volume_type()), (true, true, 0));
    assert_eq!(without_boot(&image).unwrap(), empty(Kind::Ofs));
}

#[test]
fn boot_blocks_go_from_disk_to_disk() {
    let (from, to) = (with_standard_boot(&empty(Kind::Ofs)).unwrap(), empty(Kind::Ffs));
    let new = with_boot(&to, &from).unwrap();
    assert_eq!(new, with_boot(&to, Boot::of(&from).unwrap()).unwrap());
    let boot = Boot::of(&new).unwrap();
    assert_eq!((boot.is_bootable(), boot.volume_type()), (true, 1));
    assert_eq!(&new[1024..], &to[1024..]);
}

#[test]
fn refusals_have_numbers() {
    let image = empty(Kind::Ffs);
    for (image, source, refusal) in [
        (&image[..1536], &image[..1024], BootRefusal::BadSize),
        (&[0; 2048], &image[..1024], BootRefusal::NotDos),
        (&image[..], &image[..1023], BootRefusal::BadSourceSize),
        (&image[..], &[0; 1024], BootRefusal::SourceNotDos),
    ] {
        assert_eq!(with_boot(image, source).unwrap_err(), refusal);
    }
    assert!(with_boot(&image, &image[..1025]).is_ok());
    assert_eq!(Boot::of(&image[..1023]).unwrap_err().to_string(), "bad size");
}
