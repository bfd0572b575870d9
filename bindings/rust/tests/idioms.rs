//! What the crate has as others have it: numbers of blocks, files that are read and sought in, iterators, names.

use adf::{open_blocks, rescue_blocks, run, Cause, Disk, NotFound, Refused, Survey, Volume};
use std::io::{copy, ErrorKind, Read, Seek, SeekFrom};

const MANIFEST: &[u8] = b"volume ofs 1760\ndir 0:0:0 00000000 c\nfile 0:0:0 00000000 c/B\\xfccher\nfill 1000 41\ndata 4243\n";

fn image() -> Vec<u8> {
    run(&["build"], MANIFEST).into_output().unwrap()
}

#[test]
fn an_image_is_read_as_if_it_had_so_many_blocks() {
    let whole = image();
    let longer = [&whole[..], &[0; 5120]].concat();
    for blocks in [0, 8_388_609, u32::MAX] {
        let refused = Refused { cause: Cause::BadSize, block: 0 };
        assert_eq!(open_blocks(&whole, blocks).unwrap_err(), refused);
        assert_eq!(rescue_blocks(&whole, blocks).unwrap_err(), refused);
        assert_eq!(Survey::of_blocks(&whole, blocks).unwrap_err(), refused);
    }
    let opened = open_blocks(&longer, 1760).unwrap();
    assert_eq!((opened.refused, opened.left_out, opened.volume.image()), (None, vec![], &whole[..]));
    let opened = open_blocks(&whole[..512 * 1000], 1760).unwrap();
    assert_eq!(opened.left_out[0].to_string(), "lost: blocks 1000 to 1759");
    assert_eq!(opened.volume.find("c/bücher").unwrap().size(), 1002);
    assert_eq!(rescue_blocks(&whole[..512 * 1000], 1760).unwrap().image, opened.volume.image());
    let survey = Survey::of_blocks(&whole[..512 * 1000], 1760).unwrap();
    assert_eq!((survey.blocks(), survey.entries().len()), (1760, 2));
    // The root is in the middle: no blocks before it lead anywhere.
    assert_eq!(open_blocks(&whole, 100).unwrap_err().block, 50);
}

#[test]
fn a_file_is_read_and_sought_in() {
    let image = image();
    let volume = Volume::check(&image).unwrap();
    let entry = volume.find("c/bücher").unwrap();
    let mut bytes = Vec::new();
    assert_eq!(copy(&mut entry.open(), &mut bytes).unwrap(), 1002);
    assert_eq!(bytes, entry.read());
    let (mut file, mut room) = (entry.open(), [0; 3]);
    assert_eq!(file.seek(SeekFrom::End(-3)).unwrap(), 999);
    file.read_exact(&mut room).unwrap();
    assert_eq!(&room, b"ABC");
    assert_eq!(file.read(&mut room).unwrap(), 0);
    assert_eq!(file.seek(SeekFrom::Current(-1002)).unwrap(), 0);
    assert_eq!(file.seek(SeekFrom::Start(u64::MAX)).unwrap(), u64::MAX);
    assert_eq!(file.read(&mut room).unwrap(), 0);
    for wrong in [SeekFrom::Current(1), SeekFrom::End(-1003)] {
        assert_eq!(file.seek(wrong).unwrap_err().kind(), ErrorKind::InvalidInput);
    }
    assert_eq!(volume.root().open().read(&mut room).unwrap(), 0);
}

#[test]
fn what_there_is_several_of_is_iterated() {
    let image = image();
    let (volume, survey, disk) = (Volume::check(&image).unwrap(), Survey::of(&image).unwrap(), Disk::of(&image).unwrap());
    let mut paths = Vec::new();
    for entry in &volume {
        paths.push(entry.path());
    }
    assert_eq!(paths, ["c", "c/Bücher"]);
    let mut entries = volume.entries();
    assert_eq!((entries.len(), entries.nth(1).unwrap().path(), entries.next().is_none()), (2, "c/Bücher".to_owned(), true));
    assert_eq!(volume.entries().rev().map(|entry| entry.number()).collect::<Vec<_>>(), [2, 1]);
    assert_eq!((&survey).into_iter().map(|found| found.path()).collect::<Vec<_>>(), ["c", r"c/B\xfccher"]);
    assert_eq!((&disk).into_iter().count(), 0);
    assert_eq!(format!("{:?}", volume.entries()), "Entries { left: 2 }");
}

#[test]
fn names_have_one_form() {
    let image = image();
    let (volume, survey, disk) = (Volume::check(&image).unwrap(), Survey::of(&image).unwrap(), Disk::of(&image).unwrap());
    for path in ["c/Bücher", "C/BüCHER", r"c/B\xfccher"] {
        assert_eq!(survey.find(path).unwrap().number(), 2);
    }
    assert_eq!(volume.find("c/Bücher").unwrap().number(), volume.find_bytes(b"c/B\xfccher").unwrap().number());
    assert_eq!(survey.find_bytes(b"c/B\xfccher").unwrap().remains().unwrap().bytes.len(), 1002);
    for path in ["nix", "", "c/\u{20ac}", r"c\", r"c/B\xFCcher"] {
        assert_eq!(survey.find(path).unwrap_err(), NotFound::Nothing, "{path}");
    }
    assert_eq!((disk.find("DH0").unwrap_err(), disk.find_bytes(b"DH0").unwrap_err()), (NotFound::Nothing, NotFound::Nothing));
}

#[test]
fn a_finding_can_be_shown() {
    let mut image = image();
    image[512 * 880 + 440] ^= 1;
    let survey = Survey::of(&image).unwrap();
    let shown = format!("{:?}", survey.findings().next().unwrap());
    assert_eq!(shown, "Finding { blocks: 880..=880, cause: BadSum, entry: None, .. }");
}
