//! Small volumes, built by the library itself.

use adf::{
    open, remains_of, rescue, run, survey, Cause, Date, Disk, DiskCause, Kind, LeftOut, NotFound, PartitionFault, Reason,
    Refused, Remains, Role, Survey, Volume,
};
use std::fmt::Debug;
use std::time::{Duration, SystemTime};

const MANIFEST: &str = r"volume ofs 1760
label Tr\xfc
stamps 8035:0:0 9000:1439:2999 1:2:3
dir 8035:0:0 00000000 c
file 8035:754:2999 0000000f c/readme
note s\xe4mtlich
data 48656c6c6f0a
dir 0:0:0 00000000 empty
file 0:0:0 00000000 none
file 9000:1:2 00000000 large
fill 70000 41
data 42434445
fill 9996 46
file 1:9999:0 00000000 B\xfccher
dir 0:0:0 00000000 a\x5cb
dir 0:0:0 00000000 a\x5cb/deep
file 0:0:0 00000000 a\x5cb/deep/er
";

fn built(manifest: &str) -> Vec<u8> {
    let answer = run(&["build"], manifest.as_bytes());
    assert_eq!((answer.status, answer.errors), (0, vec![]));
    answer.output
}

/// The image in this kind.
fn image(kind: &str) -> Vec<u8> {
    built(&MANIFEST.replace("ofs", kind))
}

/// An FFS volume with international letters and one file, whose name is 0xE9. Its slot in the table of the root is that of 0xC9, 70, in
/// place of 30 by ASCII letters.
fn international() -> Vec<u8> {
    let mut image = built("volume ffs 1760\nfile 0:0:0 00000000 \\xe9\ndata 41\n");
    let slot = |number: usize| 880 * 512 + 4 * (6 + number);
    image.copy_within(slot(30)..slot(30) + 4, slot(70));
    image[slot(30)..slot(30) + 4].fill(0);
    image[3] = 3;
    image
}

/// What stands behind the date in the lines of entries of `adf list`.
fn listed(image: &[u8]) -> Vec<String> {
    let lines = String::from_utf8(run(&["list"], image).output).unwrap();
    let entry = |line: &str| line.starts_with("dir  ") || line.starts_with("file ");
    lines.lines().filter(|line| entry(line)).map(|line| line.rsplit(' ').next().unwrap().to_owned()).collect()
}

#[test]
fn a_volume_has_its_numbers() {
    for (name, kind) in [("ofs", Kind::Ofs), ("ffs", Kind::Ffs)] {
        let image = image(name);
        let volume = Volume::check(&image).unwrap();
        let checked = String::from_utf8(run(&["check"], &image).output).unwrap();
        let numbers =
            format!("ok {name} blocks {} used {} free {} dirs 4 files 5\n", volume.blocks(), volume.used(), volume.free());
        assert_eq!((checked, volume.kind()), (numbers, kind));
        assert_eq!(volume.label().to_string(), "Trü");
        assert_eq!(volume.date(), Date { days: 8035, mins: 0, ticks: 0 });
        assert_eq!(volume.altered(), Date { days: 9000, mins: 1439, ticks: 2999 });
        assert_eq!(volume.created(), Date { days: 1, mins: 2, ticks: 3 });
    }
}

#[test]
fn entries_are_those_of_the_list() {
    let image = image("ffs");
    let volume = Volume::check(&image).unwrap();
    let paths: Vec<String> = volume.entries().map(|entry| adf::escape(&entry.path_bytes())).collect();
    assert_eq!((volume.entries().len(), &paths), (9, &listed(&image)));
    for entry in volume.entries() {
        assert_eq!(volume.find(entry.path()).unwrap().number(), entry.number());
        assert_eq!(volume.find_bytes(&entry.path_bytes()).unwrap().number(), entry.number());
        assert!(entry.parent().unwrap().children().any(|child| child.number() == entry.number()));
    }
    assert_eq!(volume.root().children().len(), 6);
    assert!(volume.find("c/readme").unwrap().children().next().is_none());
    assert!(volume.find("empty").unwrap().children().next().is_none());
}

#[test]
fn an_entry_tells_its_fields() {
    let image = image("ofs");
    let volume = Volume::check(&image).unwrap();
    let readme = volume.find("C/ReadMe").unwrap();
    assert_eq!((readme.is_file(), readme.size(), readme.protection()), (true, 6, 15));
    assert_eq!((readme.name().as_bytes(), readme.comment().to_string()), (&b"readme"[..], "sämtlich".to_owned()));
    let moment = SystemTime::UNIX_EPOCH + Duration::new(946_684_800 + 754 * 60 + 59, 980_000_000);
    assert_eq!(readme.date().to_system_time(), Some(moment));
    let books = volume.find("Bücher").unwrap();
    assert_eq!((books.name().to_string(), books.path(), books.date().to_system_time()), ("Bücher".into(), "Bücher".into(), None));
    let root = volume.root();
    assert_eq!((root.is_file(), root.path(), root.header(), root.parent().is_none()), (false, String::new(), 880, true));
    assert_eq!(volume.find("").unwrap().number(), 0);
}

#[test]
fn files_are_read_from_any_place() {
    for kind in ["ofs", "ffs"] {
        let image = image(kind);
        let volume = Volume::check(&image).unwrap();
        let large = volume.find("large").unwrap();
        let wanted = [vec![b'A'; 70_000], b"BCDE".to_vec(), vec![b'F'; 9_996]].concat();
        assert_eq!(large.read(), wanted);
        assert_eq!(run(&["cat", "large"], &image).output, wanted);
        let mut room = [b'?'; 8];
        assert_eq!((large.read_at(&mut room, 69_998), room), (8, *b"AABCDEFF"));
        room.fill(b'?');
        assert_eq!((large.read_at(&mut room, 79_997), room), (3, *b"FFF?????"));
        for offset in [80_000, 80_001, usize::MAX] {
            assert_eq!(large.read_at(&mut room, offset), 0);
        }
        assert_eq!(large.read_at(&mut [], 0), 0);
        assert_eq!((volume.find("c").unwrap().read(), volume.root().read()), (vec![], vec![]));
    }
}

#[test]
fn a_volume_with_international_letters_is_read() {
    let image = international();
    let volume = Volume::check(&image).unwrap();
    assert_eq!((volume.kind(), volume.entries().len()), (Kind::FfsInternational, 1));
    for path in ["é", "É"] {
        assert_eq!(volume.find(path).unwrap().read(), b"A");
    }
    let roles = volume.owners().unwrap();
    assert_eq!((roles[880], roles.iter().filter(|role| **role == Role::Data).count()), (Role::Root, 1));
    assert!(open(&image).unwrap().refused.is_none());
}

#[test]
fn paths_that_lead_nowhere_are_told() {
    let image = image("ofs");
    let volume = Volume::check(&image).unwrap();
    for path in ["nix", "c/readme/more", "c/nix", r"\x63"] {
        assert_eq!(volume.find(path).unwrap_err(), NotFound::Nothing, "{path}");
    }
    for path in ["a//b", "\u{20ac}", "/c", "c/"] {
        assert_eq!(volume.find(path).unwrap_err(), NotFound::NoPath, "{path}");
    }
}

#[test]
fn an_image_is_refused_with_its_first_fault() {
    let sound = image("ofs");
    let mut bad_sum = sound.clone();
    bad_sum[880 * 512 + 440] ^= 1;
    let bad: [(&[u8], Cause, u32); 4] = [
        (&[], Cause::BadSize, 0),
        (&sound[1..], Cause::BadSize, 0),
        (&[0; 2048], Cause::NotDos, 0),
        (&bad_sum, Cause::BadSum, 880),
    ];
    for (image, cause, block) in bad {
        let refused = Volume::check(image).unwrap_err();
        assert_eq!(refused, Refused { cause, block });
        assert_eq!(format!("{refused}\n").as_bytes(), run(&["check"], image).output);
    }
}

#[test]
fn blocks_have_their_roles() {
    let image = image("ofs");
    let volume = Volume::check(&image).unwrap();
    let owners = volume.owners().unwrap();
    let count = |role| owners.iter().filter(|owner| **owner == role).count();
    assert_eq!((owners.len(), owners[0], owners[880]), (1760, Role::Boot, Role::Root));
    assert_eq!((count(Role::Boot), count(Role::Page), count(Role::MapExt), count(Role::Head)), (2, 1, 0, 9));
    // Files of 80,000 and 6 bytes: 488 bytes in a data block of OFS, and 72 data blocks in a header or extension block.
    assert_eq!((count(Role::Data), count(Role::Ext), count(Role::Free)), (165, 2, volume.free() as usize));
}

/// The lines of an enum in the header are those of an enum of the crate: names with this front, and numbers.
fn are_those_of_the_header<T: Debug>(title: &str, front: &str, ours: impl Iterator<Item = (T, u32)>, accepted: usize) {
    let header = include_str!("../../../include/adf.h");
    let lines = &header[header.find(&format!("enum {title} {{")).unwrap()..];
    let lines = &lines[..lines.find('}').unwrap()];
    let mut count = accepted;
    for (item, number) in ours {
        let spelled = |c: char| [c.is_uppercase().then_some('_'), Some(c)];
        let name: String = format!("{item:?}").chars().flat_map(spelled).flatten().collect();
        let line = format!("{front}{} = {number}", name.to_uppercase());
        assert!([',', ' ', '\n'].iter().any(|end| lines.contains(&format!("{line}{end}"))), "{line}");
        count += 1;
    }
    assert_eq!(lines.matches(" = ").count(), count, "{title}");
}

#[test]
fn numbers_are_those_of_the_header() {
    are_those_of_the_header("adf_cause", "ADF", Cause::ALL.iter().map(|cause| (cause, cause.number().into())), 1);
    are_those_of_the_header("adf_role", "ADF_ROLE", Role::ALL.iter().map(|role| (role, role.number().into())), 0);
    are_those_of_the_header("adf_kind", "ADF", Kind::ALL.iter().map(|kind| (kind, kind.number())), 0);
    are_those_of_the_header("adf_disk_cause", "ADF_DISK", DiskCause::ALL.iter().map(|cause| (cause, cause.number().into())), 1);
    let faults = PartitionFault::ALL.iter().map(|fault| (fault, fault.number().into()));
    are_those_of_the_header("adf_partition_fault", "ADF_PARTITION", faults, 1);
}

#[test]
fn a_number_stands_for_itself_alone() {
    for number in 0..=u8::MAX {
        assert_eq!(Cause::from(number).number(), number);
        assert_eq!(Cause::ALL.contains(&Cause::from(number)), (1..=23).contains(&number));
        assert_eq!((Role::from(number).number(), Kind::from(u32::from(number)).number()), (number, number.into()));
        assert_eq!((DiskCause::from(number).number(), PartitionFault::from(number).number()), (number, number));
    }
}

#[test]
fn texts_are_those_of_the_programs() {
    // The rows of causes are `block B: CAUSE`; the page of adf-disk has an item for each text.
    for cause in Cause::ALL {
        assert!(
            include_str!("../../../docs/FAULTS.md").contains(&format!("**`{cause}`")) || *cause == Cause::NoMemory,
            "{cause}"
        );
    }
    let page = include_str!("../../../docs/adf-disk.1");
    for text in DiskCause::ALL.iter().map(DiskCause::to_string).chain(PartitionFault::ALL.iter().map(PartitionFault::to_string)) {
        assert!(page.contains(&format!("\n.It {text}\n")), "{text}");
    }
}

#[test]
fn the_version_is_that_of_the_header() {
    let line = format!("#define ADF_VERSION \"{}\"", env!("CARGO_PKG_VERSION").strip_suffix(".0").unwrap());
    let number = format!("#define ADF_VERSION_NUMBER {}\n", adf::version());
    let header = include_str!("../../../include/adf.h");
    assert!(header.contains(&line) && header.contains(&number), "{line} {number}");
}

#[test]
fn threads_share_a_volume() {
    let image = image("ffs");
    let volume = Volume::check(&image).unwrap();
    std::thread::scope(|scope| {
        for _ in 0..8 {
            scope.spawn(|| {
                for _ in 0..50 {
                    assert_eq!(volume.find("large").unwrap().read().len(), 80_000);
                }
            });
        }
    });
}

#[test]
fn a_volume_owns_its_bytes() {
    fn opened() -> Volume<'static> {
        Volume::check_owned(image("ofs")).unwrap()
    }
    let volume = opened();
    assert_eq!((volume.find("c/readme").unwrap().read(), volume.image().len()), (b"Hello\n".to_vec(), 1760 * 512));
    assert_eq!(volume.owners().unwrap()[880], Role::Root);
    let refused = Volume::check_owned(vec![0; 2048]).unwrap_err();
    assert_eq!(refused, Refused { cause: Cause::NotDos, block: 0 });
}

#[test]
fn answers_are_errors_too() {
    fn file(path: &str, image: &[u8]) -> Result<Vec<u8>, Box<dyn std::error::Error>> {
        Ok([run(&["cat", path], image).into_output()?, remains_of(image, path)?.bytes].concat())
    }
    let image = image("ofs");
    assert_eq!(file("c/readme", &image).unwrap(), b"Hello\nHello\n");
    assert_eq!(file("nix", &image).unwrap_err().to_string(), "no such path");
    assert_eq!(run(&["check"], &[0; 2048]).into_output().unwrap_err().to_string(), "block 0: not dos");
}

#[test]
fn the_command_runs_over_memory() {
    let image = built("volume ffs 120000\nlabel Large\n");
    assert_eq!(image.len(), 120_000 * 512);
    assert_eq!(run(&["frob"], b"").status, 2);
    for words in [&["cat\0c/readme"][..], &["check", "\0"], &["cat", "a\0--list"]] {
        let answer = run(words, &image);
        assert_eq!((answer.status, answer.output, &answer.errors[..]), (2, vec![], &b"an argument has a zero byte\n"[..]));
    }
    let answer = run(&["cat", "nix"], &image);
    assert_eq!((answer.status, &answer.output[..], &answer.errors[..]), (1, &b""[..], &b"no such path\n"[..]));
}

#[test]
fn a_survey_tells_findings_and_reads_what_stands() {
    // The header of `c` is the first free block, 2, and that of its file the next.
    let mut image = built("volume ofs 16\ndir 0:0:0 00000000 c\nfile 0:0:0 00000000 c/a\ndata 616263\n");
    assert_eq!(survey(&[], &image).status, 0);
    image[2 * 512 + 323] ^= 1;
    let answer = survey(&[], &image);
    assert_eq!((answer.status, &answer.output[..]), (1, &b"block 2: bad sum: c\n"[..]));
    let answer = survey(&["cat", "c/a"], &image);
    assert_eq!((answer.status, &answer.output[..]), (0, &b"abc"[..]));
    let found = Survey::of(&image).unwrap();
    let findings: Vec<_> = found.findings().map(|finding| (finding.first(), finding.last(), finding.cause())).collect();
    assert_eq!(findings, [(2, 2, Cause::BadSum)]);
    assert_eq!(found.findings().next().and_then(|finding| finding.entry()).map(|entry| entry.path()), Some("c".to_owned()));
    let entries: Vec<_> = found.entries().map(|entry| (entry.path(), entry.is_sound(), entry.size())).collect();
    assert_eq!(entries, [("c".to_owned(), false, 0), ("c/a".to_owned(), true, 3)]);
    assert_eq!((found.kind(), found.label().as_bytes()), (Some(Kind::Ofs), &b""[..]));
}

/// A block of a disk's tables with these words, and its sum in word 2.
fn table(words: &[(usize, u32)]) -> Vec<u8> {
    let mut block = [0u32; 128];
    for &(place, value) in words {
        block[place] = value;
    }
    block[2] = block.iter().fold(0u32, |sum, &word| sum.wrapping_sub(word));
    block.iter().flat_map(|word| word.to_be_bytes()).collect()
}

#[test]
fn a_disk_tells_its_partitions() {
    // DH0 has blocks 16 to 31 of a disk of 32.
    let drive = [(0, 0x5041_5254), (1, 64), (4, u32::MAX), (5, 1), (9, 0x0344_4830), (32, 16), (33, 128), (35, 1)];
    let place = [(36, 1), (37, 16), (41, 1), (42, 1), (47, 5), (48, 0x444F_5301)];
    let mut image = table(&[(0, 0x5244_534B), (1, 64), (4, 512), (7, 1), (32, 0), (33, 15)]);
    image.extend(table(&[&drive[..], &place[..]].concat()));
    image.resize(16 * 512, 0);
    image.extend(built("volume ffs 16\nfile 0:0:0 00000000 a\ndata 616263\n"));
    let disk = Disk::of(&image).unwrap();
    assert_eq!((disk.fault(), disk.partitions().len()), (None, 1));
    let partition = disk.find("dh0").unwrap();
    assert_eq!((partition.number(), partition.name().as_bytes(), partition.place()), (1, &b"DH0"[..], Ok((16, 16))));
    assert_eq!((partition.flags(), partition.priority(), &partition.dos_type()), (1, 5, b"DOS\x01"));
    let volume = Volume::check(partition.volume().unwrap()).unwrap();
    assert_eq!(volume.find("a").unwrap().read(), b"abc");

    // The disk ends within it.
    let disk = Disk::of(&image[..31 * 512]).unwrap();
    assert_eq!(disk.partitions().next().unwrap().place(), Err(PartitionFault::BeyondImage));
    let disk = Disk::of(&image[512..]).unwrap();
    let fault = disk.fault().unwrap();
    assert_eq!((fault.cause, fault.block, &fault.to_string()[..]), (DiskCause::NoRigidDisk, 0, "block 0: no rigid disk"));
}

#[test]
fn what_is_left_of_a_file_is_told() {
    // The header of `a` is block 2, its data 3 to 5, with 488 bytes in each but the last; the types of 3 and 5 become 0.
    let mut image = built("volume ofs 16\nfile 0:0:0 00000000 a\nfill 1000 41\ndir 0:0:0 00000000 c\n");
    assert_eq!(remains_of(&image, "a"), Ok(Remains { bytes: vec![b'A'; 1000], lost: vec![] }));
    image[3 * 512 + 3] = 0;
    image[5 * 512 + 3] = 0;
    let bytes = [vec![0; 488], vec![b'A'; 488], vec![0; 24]].concat();
    assert_eq!(remains_of(&image, "a"), Ok(Remains { bytes, lost: vec![0..488, 976..1000] }));
    for (path, why) in [("nix", "no such path: nix\n"), ("c", "not a file\n"), ("a//b", "bad path\n")] {
        assert_eq!(remains_of(&image, path).unwrap_err().answer.errors, why.as_bytes());
    }
    assert_eq!(remains_of(b"", "a").unwrap_err().to_string(), "no such path: a");
    // By its number the bytes and the gaps are the same.
    let survey = Survey::of(&image).unwrap();
    let parts = survey.parts().unwrap();
    let files: Vec<_> = survey.entries().map(|found| parts.file(found).unwrap()).collect();
    let mut room = [0; 700];
    assert_eq!(files[0].piece_at(&mut room, 0), (0, 488));
    assert_eq!(files[0].piece_at(&mut room, 488), (488, 24));
    assert_eq!((&room[..488], room[488]), (&[b'A'; 488][..], 0));
    assert_eq!(files[0].piece_at(&mut room, 1000), (0, 0));
    assert_eq!(survey.owners().unwrap()[2..6], [Role::Head, Role::Free, Role::Data, Role::Free]);
}

#[test]
fn what_adf_survey_opens_is_surveyed() {
    // Both boot blocks are lost; then the type is that of FFS, and the files say OFS.
    let sound = built("volume ofs 16\nfile 0:0:0 00000000 a\nfill 1000 41\n");
    let lost = [vec![0; 1024], sound[1024..].to_vec()].concat();
    let typed = [&b"DOS\x01"[..], &sound[4..]].concat();
    for (image, findings) in [(lost, &[(0, Cause::NotDos)][..]), (typed, &[])] {
        let survey = Survey::of(&image).unwrap();
        assert_eq!(survey.findings().map(|finding| (finding.first(), finding.cause())).collect::<Vec<_>>(), findings);
        assert_eq!((survey.is_begun(), survey.is_retyped(), survey.kind()), (image[0] == 0, image[0] != 0, Some(Kind::Ofs)));
        let found = survey.entries().next().unwrap();
        let whole = Remains { bytes: vec![b'A'; 1000], lost: vec![] };
        assert_eq!((found.is_sound(), found.remains(), remains_of(&image, "a")), (true, Ok(whole.clone()), Ok(whole)));
        let mut room = [0; 1001];
        let file = survey.parts().unwrap().file(found).unwrap();
        assert_eq!((file.piece_at(&mut room, 0), room[999], room[1000]), ((1000, 0), b'A', 0));
        assert_eq!(survey.owners().unwrap()[2..6], [Role::Head, Role::Data, Role::Data, Role::Data]);
    }
    assert!(!Survey::of(&sound).unwrap().is_begun());
}

#[test]
fn the_type_has_the_letters_of_the_names() {
    let mut image = international();
    image[3] = 1;
    let survey = Survey::of(&image).unwrap();
    assert_eq!((survey.is_retyped(), survey.kind()), (true, Some(Kind::Ffs)));
    assert_eq!(survey.findings().map(|finding| finding.cause()).collect::<Vec<_>>(), [Cause::International]);
    assert!(survey.entries().all(|found| found.is_sound()));
}

#[test]
fn a_floppy_has_its_blocks() {
    // There are 44 blocks behind the volume, or 60 are missing, which are free.
    let sound = image("ofs");
    for (image, lost) in [([&sound[..], &[0; 512 * 44]].concat(), (1760, 1803)), (sound[..512 * 1700].to_vec(), (1700, 1759))] {
        let opened = open(&image).unwrap();
        let blocks = LeftOut { reason: Reason::Blocks, path: String::new(), first: lost.0, last: lost.1 };
        assert_eq!((opened.left_out, opened.volume.blocks(), opened.volume.image().len()), (vec![blocks], 1760, 901_120));
        assert_eq!(opened.volume.find("large").unwrap().read(), Volume::check(&sound).unwrap().find("large").unwrap().read());
        let survey = Survey::of(&image).unwrap();
        assert_eq!((survey.blocks(), survey.findings().count(), survey.entries().all(|found| found.is_sound())), (1760, 0, true));
    }
}

#[test]
fn a_floppy_that_is_cut_in_a_file_has_it_damaged() {
    // `a` has 1,213 data blocks: its header is block 2, then come 16 extension blocks, and from 19 on data, around the root, 880, and its
    // page, 881.
    let sound = built("volume ofs 1760\nfile 0:0:0 00000000 a\nfill 591944 41\n");
    let survey = Survey::of(&sound[..512 * 900]).unwrap();
    let found = survey.entries().next().unwrap();
    let left = 488 * (880 - 19 + 900 - 882);
    let lost = found.remains().unwrap().lost;
    assert_eq!((found.is_sound(), lost.len(), lost[0].start, lost[0].end), (false, 1, left, 591_944));
    let mut room = vec![0; 591_944];
    assert_eq!(survey.parts().unwrap().file(found).unwrap().piece_at(&mut room, 0), (left, 591_944 - left));
}

#[test]
fn a_path_that_two_files_have_is_refused() {
    // The header of `a` is block 2, that of `b` block 4, each with one data block behind it. `b` becomes a second `a`, in the slot
    // of `b`, so that it is found, and its slot is wrong.
    let mut image = built("volume ofs 16\nfile 0:0:0 00000000 a\ndata 41\nfile 0:0:0 00000000 b\ndata 42\n");
    let name = (2..16).find(|block| image[block * 512 + 432..][..2] == *b"\x01b").unwrap() * 512 + 433;
    image[name] = b'A';
    let sum = name / 512 * 512 + 23;
    image[sum] = image[sum].wrapping_add(b'b' - b'A');
    let survey = Survey::of(&image).unwrap();
    let found: Vec<_> = survey.entries().collect();
    assert_eq!(found.iter().map(|found| found.path().to_lowercase()).collect::<Vec<_>>(), ["a", "a"]);
    let left: Vec<_> = found.iter().map(|found| found.remains().unwrap()).collect();
    assert!(left.iter().all(|left| left.lost.is_empty()));
    assert_eq!(left.iter().map(|left| &left.bytes[..]).collect::<std::collections::BTreeSet<_>>(), [&b"A"[..], b"B"].into());
    assert_eq!(remains_of(&image, "a").unwrap_err().to_string(), "not unique");
    image[name] = b'b';
    image[sum] = image[sum].wrapping_sub(b'b' - b'A');
    let survey = Survey::of(&image).unwrap();
    let left: Vec<_> = survey.entries().map(|found| (found.path(), found.remains().unwrap().bytes)).collect();
    assert_eq!(left, [("a".to_owned(), b"A".to_vec()), ("b".to_owned(), b"B".to_vec())]);
}

#[test]
fn names_that_are_none_are_spelled_as_by_the_command() {
    // The header of `c` is block 2, that of `ab` block 3, with its data in block 4. Byte 432 is the length of a name, 433 its first; the
    // type of the data block becomes 0.
    let mut sound = built("volume ofs 16\ndir 0:0:0 00000000 c\nfile 0:0:0 00000000 c/ab\ndata 41\n");
    sound[512 * 4 + 3] = 0;
    let cases: [(&[u8], &str, &[u8]); 5] = [
        (b"\x02/b", r"c/\x2fb", b"c//b"),
        (b"\x02..", "c/..", b"c/.."),
        (b"\x02:\x1b", r"c/\x3a\x1b", b"c/:\x1b"),
        (b"\x00ab", r"c/\x", b"c/"),
        (b"\x02\\\xfc", r"c/\x5c\xfc", b"c/\\\xfc"),
    ];
    for (name, path, bytes) in cases {
        let mut image = sound.clone();
        image[512 * 3 + 432..][..3].copy_from_slice(name);
        let survey = Survey::of(&image).unwrap();
        let found = survey.entries().find(|found| found.is_file()).unwrap();
        assert_eq!((found.path(), &found.path_bytes()[..]), (path.to_owned(), bytes));
        let lines = String::from_utf8(adf::survey(&["--list"], &image).output).unwrap();
        assert!(lines.lines().any(|line| line.starts_with("damaged file ") && line.ends_with(&format!(" {path}"))), "{lines}");
        let left_out = rescue(&image).unwrap().left_out;
        let told = left_out.iter().find(|each| each.reason == Reason::Damaged).unwrap();
        assert_eq!((told.to_string(), told.path_bytes()), (format!("damaged: {path}"), bytes.to_vec()));
        let lines: String = left_out.iter().map(|each| format!("{each}\n")).collect();
        assert_eq!(String::from_utf8(adf::survey(&["rescue"], &image).errors).unwrap(), lines);
    }
}

#[test]
fn a_rescue_tells_what_it_leaves_out() {
    // The header of `a` is block 2, its data 3 to 5; the type of 3 becomes 0.
    let mut image = built("volume ofs 16\nfile 0:0:0 00000000 a\nfill 1000 41\ndir 0:0:0 00000000 c\n");
    assert_eq!(rescue(&image).unwrap().left_out, []);
    image[3 * 512 + 3] = 0;
    let rescued = rescue(&image).unwrap();
    assert_eq!(rescued.left_out, [LeftOut { reason: Reason::Damaged, path: "a".to_owned(), first: 2, last: 2 }]);
    let volume = Volume::check_owned(rescued.image).unwrap();
    assert_eq!(volume.entries().map(|entry| entry.path()).collect::<Vec<_>>(), ["c"]);
    assert_eq!(rescue(b"").unwrap_err(), Refused { cause: Cause::BadSize, block: 0 });
}

#[test]
fn a_rescue_tells_what_is_lost() {
    // The header of `c` is block 2, that of `c/x` block 3, its data 4 and 5.
    let mut image = built("volume ofs 64\ndir 0:0:0 00000000 c\nfile 0:0:0 00000000 c/x\nfill 900 41\n");
    image[3 * 512 + 3] = 0;
    let left_out = rescue(&image).unwrap().left_out;
    let headers = LeftOut { reason: Reason::Headers, path: "c".to_owned(), first: 2, last: 2 };
    let blocks = LeftOut { reason: Reason::Blocks, path: String::new(), first: 4, last: 5 };
    assert_eq!(left_out, [headers, blocks]);
    assert_eq!(left_out.iter().map(LeftOut::to_string).collect::<Vec<_>>(), ["lost: in c/", "lost: blocks 4 to 5"]);
}

#[test]
fn a_rescue_tells_what_is_in_doubt() {
    // Block 2 is `c`, 3 is `c/a`, 4 its data, 8 the root. The checksum of `c` is wrong; then the root does not lead to it any more.
    let sound = built("volume ofs 16\ndir 0:0:0 00000000 c\nfile 0:0:0 00000000 c/a\ndata 41\n");
    let (mut doubted, mut lost) = (sound.clone(), sound);
    doubted[512 * 2 + 323] ^= 1;
    let place = (512 * 8 + 24..).step_by(4).find(|place| lost[*place..][..4] == [0, 0, 0, 2]).unwrap();
    lost[place + 3] = 0;
    for (image, lines) in [
        (doubted, &[("in doubt: c", true)][..]),
        (lost, &[("found again: c", true), ("found again: c/a", true), ("lost: in /", false), ("lost: block 8", false)]),
    ] {
        let opened = open(&image).unwrap();
        let told: Vec<_> = opened.left_out.iter().map(|each| (each.to_string(), each.is_kept())).collect();
        assert_eq!(told.iter().map(|(text, is_kept)| (&text[..], *is_kept)).collect::<Vec<_>>(), lines);
        assert_eq!(opened.volume.find("c/a").unwrap().read(), b"A");
    }
}

#[test]
fn reasons_of_kept_entries_have_texts() {
    let texts = [(7, "perhaps deleted: a"), (9, "made: a")];
    for (number, text) in texts {
        let told = LeftOut { reason: Reason::from(number), path: "a".to_owned(), first: 2, last: 2 };
        assert_eq!((told.to_string(), told.is_kept()), (text.to_owned(), true));
    }
}

#[test]
fn escape_forms_are_read_back() {
    let all: Vec<u8> = (0..=u8::MAX).collect();
    assert_eq!(adf::unescape(&adf::escape(&all)), Some(all));
    for text in ["\\", "\\x", "\\x0", "\\x0g", "\\y00", "\\x+1", "\u{fc}", "\n"] {
        assert_eq!(adf::unescape(text), None, "{text}");
    }
}

#[test]
fn the_example_prints_nothing_that_a_terminal_obeys() {
    // Cargo builds the examples beside the tests, unless it is asked for one test alone.
    let example = std::env::current_exe().unwrap().ancestors().nth(2).unwrap().join("examples/list");
    if !example.exists() {
        return;
    }
    let path = std::env::temp_dir().join(format!("adf-list-{}.adf", std::process::id()));
    std::fs::write(&path, built("volume ofs 16\nfile 0:0:0 00000000 \\x1b[2J\ndata 41\n")).unwrap();
    let ran = |words: &[&str]| std::process::Command::new(&example).arg(&path).args(words).output().unwrap().stdout;
    let (listed, read) = (ran(&[]), ran(&["\\x1b[2J"]));
    std::fs::remove_file(&path).unwrap();
    assert_eq!((listed, read), (b"         1 \\x1b[2J\n".to_vec(), b"A".to_vec()));
}

#[test]
fn what_stands_is_opened() {
    let sound = image("ofs");
    let opened = open(&sound).unwrap();
    assert_eq!((opened.refused, opened.left_out, opened.volume.image()), (None, vec![], &sound[..]));

    let header = Volume::check(&sound).unwrap().find("large").unwrap().header() as usize;
    let mut damaged = sound.clone();
    damaged[512 * header + 323] ^= 1;
    let opened = open(&damaged).unwrap();
    assert_eq!(opened.refused, Volume::check(&damaged).err());
    assert_eq!(opened.volume.find("c/readme").unwrap().read(), b"Hello\n");
    assert_eq!(opened.volume.find("large").err(), Some(NotFound::Nothing));
    let header = header as u32;
    let damaged = LeftOut { reason: Reason::Damaged, path: "large".to_owned(), first: header, last: header };
    let blocks = LeftOut { reason: Reason::Blocks, path: String::new(), first: 7, last: 78 };
    assert_eq!(opened.left_out, [damaged, blocks]);

    assert_eq!(open(&[]).err(), Some(Refused { cause: Cause::BadSize, block: 0 }));
    assert_eq!(open(&[0; 8192]).err(), Some(Refused { cause: Cause::NotDos, block: 0 }));
}
