//! A library that is newer than the crate: all calls of include/adf.h are defined here, in place of the library's, and answer
//! numbers that the header does not have. Nothing may stand for a number that the crate knows, and 0 alone accepts.
#![allow(unsafe_code)]

use adf::{Cause, Disk, DiskCause, Kind, LinkKind, NotFound, PartitionFault, Refused, Role, Survey, Volume};
use std::ptr::addr_of_mut;

const NEW: u8 = 24;

/// The front of `struct adf_contents`, and of `struct adf_surveyed`.
#[repr(C)]
pub struct Numbers {
    kind: u32,
    blocks: u32,
}

/// `struct adf_finding`.
#[repr(C)]
pub struct Finding {
    first: u32,
    last: u32,
    node: usize,
    owner: usize,
    cause: u8,
    is_within: u8,
}

/// `struct adf_link`.
#[repr(C)]
pub struct Link {
    node: usize,
    target: usize,
    path: usize,
    path_length: usize,
    header: u32,
    kind: u8,
}

/// `struct adf_surveyed` up to its number of findings.
#[repr(C)]
pub struct Surveyed {
    numbers: Numbers,
    findings: usize,
}

/// `struct adf_subject`.
#[repr(C)]
pub struct Subject {
    length: usize,
    held: u32,
    marks: [u8; 2],
}

/// `struct adf_partition`.
#[repr(C)]
pub struct Partition {
    places: [u64; 2],
    words: [u32; 4],
    fault: u8,
    name: [u8; 32],
}

/// `struct adf_disk`.
#[repr(C)]
pub struct DiskNumbers {
    partitions: usize,
    block: u32,
    cause: u8,
}

/// `struct adf_loss`.
#[repr(C)]
pub struct Loss {
    path: [usize; 2],
    blocks: [u32; 2],
    why: u8,
}

/// `struct adf_rescue_told`.
#[repr(C)]
pub struct RescueTold {
    rows: [usize; 2],
    blocks: [u32; 2],
}

type Moved = [usize; 4];

/// Refuses an image of no bytes, and accepts any other.
#[no_mangle]
extern "C" fn adf_index_types(
    _: *const u8,
    length: usize,
    _: *mut u8,
    _: usize,
    _: *mut u32,
    _: usize,
    contents: *mut Numbers,
) -> u8 {
    unsafe { *contents = Numbers { kind: NEW.into(), blocks: 4 } };
    if length == 0 {
        NEW
    } else {
        0
    }
}

/// Refuses an image of one block, and accepts any other.
#[no_mangle]
extern "C" fn adf_owners_types(_: *const u8, length: usize, roles: *mut u8, room: usize) -> u8 {
    unsafe { roles.write_bytes(NEW, room) };
    if length == 512 {
        NEW
    } else {
        0
    }
}

#[no_mangle]
extern "C" fn adf_find_types(_: u32, _: *const u8, _: usize, _: *const u8, _: usize, _: *mut usize) -> u8 {
    NEW
}

#[no_mangle]
#[allow(clippy::too_many_arguments)]
extern "C" fn adf_read(
    _: *const u8,
    _: usize,
    _: *const u8,
    _: usize,
    _: *const u32,
    _: usize,
    _: usize,
    _: usize,
    _: *mut u8,
    _: usize,
) -> usize {
    0
}

#[no_mangle]
extern "C" fn adf_cause_text(cause: u8, room: *mut u8, _: usize) -> usize {
    if cause != NEW + 1 {
        return 0;
    }
    unsafe { room.copy_from(b"new".as_ptr(), 3) };
    3
}

#[no_mangle]
extern "C" fn adf_disk_cause_text(cause: u8, room: *mut u8, length: usize) -> usize {
    adf_cause_text(cause, room, length)
}

#[no_mangle]
extern "C" fn adf_partition_fault_text(fault: u8, room: *mut u8, length: usize) -> usize {
    adf_cause_text(fault, room, length)
}

#[no_mangle]
extern "C" fn adf_version() -> u32 {
    20_001
}

/// Answers the image that is given; in place of one of three blocks one of four, which its room has to hold.
#[no_mangle]
extern "C" fn adf_survey_subject(_: *const u8, length: usize, _: u32, _: *mut u8, room: usize, subject: *mut Subject) -> u8 {
    let taken = if length == 3 * 512 { 4 * 512 } else { length };
    unsafe { *subject = Subject { length: taken, held: 4, marks: [0; 2] } };
    if room < taken {
        NEW
    } else {
        0
    }
}

#[no_mangle]
extern "C" fn adf_survey_find(_: *const u8, _: usize, _: *const u8, _: usize, _: *mut usize) -> u8 {
    NEW
}

/// Refuses an image of no bytes, and has one finding in any other.
#[no_mangle]
extern "C" fn adf_survey_index(
    _: *const u8,
    length: usize,
    findings: *mut Finding,
    _: usize,
    _: *mut u8,
    _: usize,
    surveyed: *mut Surveyed,
) -> u8 {
    if length == 0 {
        return NEW;
    }
    unsafe {
        *findings = Finding { first: 2, last: 2, node: 0, owner: 0, cause: NEW, is_within: 0 };
        addr_of_mut!((*surveyed).numbers).write(Numbers { kind: NEW.into(), blocks: 4 });
        addr_of_mut!((*surveyed).findings).write(1);
    }
    0
}

/// One link of an image, of a kind that is new, with a path behind the end of it.
#[no_mangle]
extern "C" fn adf_survey_links(_: *const u8, length: usize, links: *mut Link, _: usize, count: *mut usize) -> u8 {
    unsafe {
        *links = Link { node: 1, target: 2, path: length, path_length: usize::MAX, header: 2, kind: NEW };
        *count = 1;
    }
    0
}

#[no_mangle]
extern "C" fn adf_survey_parts(_: *const u8, _: usize, _: *mut u8, _: usize) -> u8 {
    NEW
}

#[no_mangle]
extern "C" fn adf_survey_owners(image: *const u8, length: usize, roles: *mut u8, room: usize) -> u8 {
    adf_owners_types(image, length, roles, room)
}

#[no_mangle]
#[allow(clippy::too_many_arguments)]
extern "C" fn adf_found_blocks(_: *const u8, _: usize, _: *const u8, _: usize, _: usize, _: u32, _: *mut u32, _: usize) -> usize {
    0
}

#[no_mangle]
#[allow(clippy::too_many_arguments)]
extern "C" fn adf_found_read(
    _: *const u8,
    _: usize,
    _: u32,
    _: *const u32,
    _: usize,
    _: usize,
    _: *mut u8,
    _: usize,
    _: *mut usize,
) -> usize {
    0
}

/// Refuses an image of no bytes, and has one partition in any other.
#[no_mangle]
extern "C" fn adf_disk_index(
    _: *const u8,
    length: usize,
    _: u64,
    partitions: *mut Partition,
    _: usize,
    disk: *mut DiskNumbers,
) -> u8 {
    if length == 0 {
        return NEW;
    }
    unsafe {
        *partitions = Partition { places: [0; 2], words: [0; 4], fault: NEW, name: [0; 32] };
        *disk = DiskNumbers { partitions: 1, block: 3, cause: NEW };
    }
    0
}

/// Refuses an image of no bytes at its block 3, and of any other leaves an entry out for a new reason. One of three blocks has a volume
/// of four, and one of two blocks never has enough room.
#[no_mangle]
#[allow(clippy::too_many_arguments)]
extern "C" fn adf_rescue(
    _: *const u8,
    length: usize,
    _: u32,
    room: *mut u8,
    room_length: usize,
    losses: *mut Loss,
    _: usize,
    paths: *mut u8,
    _: usize,
    told: *mut RescueTold,
) -> u8 {
    if length == 0 {
        unsafe { *told = RescueTold { rows: [0; 2], blocks: [0, 3] } };
        return NEW + 1;
    }
    let blocks = if length == 3 * 512 { 4 } else { 1 };
    if room_length < 512 * blocks || length == 2 * 512 {
        unsafe { *told = RescueTold { rows: [0; 2], blocks: [blocks as u32, 0] } };
        return NEW;
    }
    unsafe {
        room.write_bytes(b'A', 512 * blocks);
        *losses = Loss { path: [0, 3], blocks: [7; 2], why: NEW };
        paths.copy_from(b"a/b".as_ptr(), 3);
        *told = RescueTold { rows: [1, 3], blocks: [blocks as u32, 0] };
    }
    0
}

#[no_mangle]
#[allow(clippy::too_many_arguments)]
extern "C" fn adf_rescue_types(
    image: *const u8,
    length: usize,
    blocks: u32,
    room: *mut u8,
    room_length: usize,
    losses: *mut Loss,
    losses_room: usize,
    paths: *mut u8,
    paths_room: usize,
    told: *mut RescueTold,
) -> u8 {
    adf_rescue(image, length, blocks, room, room_length, losses, losses_room, paths, paths_room, told)
}

#[no_mangle]
#[allow(clippy::too_many_arguments)]
extern "C" fn adf_build(_: *const u8, _: *const u8, _: usize, _: *const u8, _: usize, _: *mut u8, _: usize, _: *mut u8) -> u8 {
    NEW
}

#[no_mangle]
extern "C" fn adf_need(_: *const u8, _: *const u8, _: usize, _: *const u8, _: usize, _: *mut u8) -> u8 {
    NEW
}

#[no_mangle]
extern "C" fn adf_boot(_: *const u8, _: usize, _: *mut u8) -> u8 {
    NEW
}

#[no_mangle]
extern "C" fn adf_boot_install(_: *mut u8, _: usize) -> u8 {
    NEW
}

#[no_mangle]
extern "C" fn adf_boot_copy(_: *mut u8, _: usize, _: *const u8, _: usize) -> u8 {
    NEW
}

#[no_mangle]
extern "C" fn adf_boot_clear(_: *mut u8, _: usize) -> u8 {
    NEW
}

#[no_mangle]
#[allow(clippy::too_many_arguments)]
extern "C" fn adf_run(
    _: *const u8,
    _: usize,
    _: *const u8,
    _: usize,
    _: *mut u8,
    _: usize,
    _: *mut u8,
    _: usize,
    _: *mut Moved,
) -> u8 {
    NEW
}

#[no_mangle]
#[allow(clippy::too_many_arguments)]
extern "C" fn adf_survey_run(
    _: *const u8,
    _: usize,
    _: *const u8,
    _: usize,
    _: *mut u8,
    _: usize,
    _: *mut u8,
    _: usize,
    _: *mut Moved,
) -> u8 {
    NEW
}

#[test]
fn an_answer_that_is_new_accepts_no_image() {
    let refused = Refused { cause: Cause::Unknown(NEW), block: 0 };
    assert_eq!(Volume::check(b"").unwrap_err(), refused);
    assert_eq!(Volume::check_owned(vec![]).unwrap_err(), refused);
    assert_eq!(Survey::of(b"").unwrap_err(), refused);
    assert_eq!(Disk::of(b"").unwrap_err(), refused);
    assert_eq!(Volume::check(&[0; 512]).unwrap().owners().unwrap_err(), refused);
    assert_eq!(refused.to_string(), "block 0: unknown cause 24");
    assert_eq!(Cause::from(NEW + 1).to_string(), "new");
    assert_eq!(adf::version(), 20_001);
    let refused = adf::build(Kind::Ofs, None, &[], b"", adf::Dates::default()).unwrap_err();
    assert_eq!((refused.refusal, refused.to_string()), (adf::BuildRefusal::Unknown(NEW), "unknown refusal 24".into()));
    assert_eq!(adf::Boot::of(&[0; 2048]).unwrap_err(), adf::BootRefusal::Unknown(NEW));
    assert_eq!(adf::without_boot(&[0; 2048]).unwrap_err().to_string(), "unknown refusal 24");
}

#[test]
fn what_is_new_is_not_taken_for_what_is_known() {
    let image = [0; 1024];
    let volume = Volume::check(&image).unwrap();
    assert_eq!(volume.kind(), Kind::Unknown(NEW.into()));
    assert_eq!(volume.owners().unwrap(), [Role::Unknown(NEW), Role::Unknown(NEW)]);
    assert_eq!(volume.find("a").unwrap_err(), NotFound::Unknown(NEW));
    let survey = Survey::of(&image).unwrap();
    assert_eq!(
        (survey.kind(), survey.findings().next().unwrap().cause()),
        (Some(Kind::Unknown(NEW.into())), Cause::Unknown(NEW))
    );
    assert_eq!(survey.parts().unwrap_err(), Refused { cause: Cause::Unknown(NEW), block: 0 });
    assert_eq!(survey.owners().unwrap(), [Role::Unknown(NEW), Role::Unknown(NEW)]);
    let link = survey.links().unwrap()[0];
    assert_eq!((link.kind(), link.path()), (LinkKind::Unknown(NEW), None));
    let disk = Disk::of(&image).unwrap();
    assert_eq!(disk.fault().map(|fault| (fault.cause, fault.block)), Some((DiskCause::Unknown(NEW), 3)));
    assert_eq!(DiskCause::Unknown(NEW).to_string(), "unknown cause 24");
    assert_eq!(DiskCause::from(NEW + 1).to_string(), "new");
    assert_eq!(PartitionFault::Unknown(NEW).to_string(), "unknown fault 24");
    assert_eq!(PartitionFault::from(NEW + 1).to_string(), "new");
    assert_eq!(disk.partitions().next().unwrap().place(), Err(PartitionFault::Unknown(NEW)));
    assert_eq!(adf::run(&[], b"").into_output().unwrap_err().to_string(), "status 24");
}

#[test]
fn a_volume_may_be_longer_than_its_image() {
    assert_eq!(adf::rescue(&[0; 3 * 512]).unwrap().image, [b'A'; 4 * 512]);
    assert_eq!(adf::rescue(&[0; 2 * 512]).unwrap_err(), Refused { cause: Cause::Unknown(NEW), block: 0 });
    assert_eq!(Survey::of(&[0; 3 * 512]).unwrap().blocks(), 4);
}

#[test]
fn a_reason_that_is_new_keeps_its_number() {
    assert_eq!(adf::rescue(b"").unwrap_err(), Refused { cause: Cause::Unknown(NEW + 1), block: 3 });
    let adf::Rescue { image, left_out } = adf::rescue(&[0; 512]).unwrap();
    assert_eq!(image, [b'A'; 512]);
    let unknown = adf::LeftOut { reason: adf::Reason::Unknown(NEW), path: "a/b".to_owned(), first: 7, last: 7 };
    assert_eq!((&left_out[..], unknown.to_string()), (&[unknown][..], "unknown reason 24: a/b".to_owned()));
}
