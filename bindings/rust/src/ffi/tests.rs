use super::*;
use std::mem::{size_of, MaybeUninit};
use std::path::Path;
use std::process::Command;
use std::ptr::addr_of;

/// The place of a field in a struct.
macro_rules! offset_of {
    ($type:ty, $field:ident) => {{
        let room = MaybeUninit::<$type>::uninit();
        let start = room.as_ptr();
        // The field is not read: its place in memory that is there is taken.
        let place = unsafe { addr_of!((*start).$field) };
        place as usize - start as usize
    }};
}

/// The size of a struct and the places of its fields, with the expressions of C that stand for them.
macro_rules! layout {
    ($type:ty, $struct:literal: $($field:ident)*) => {
        [
            (concat!("sizeof(struct ", $struct, ")").to_owned(), size_of::<$type>()),
            $((concat!("offsetof(struct ", $struct, ", ", stringify!($field), ")").to_owned(), offset_of!($type, $field)),)*
        ]
    };
}

fn layouts() -> Vec<(String, usize)> {
    let mut all = Vec::new();
    all.extend(layout!(Date, "adf_date": days mins ticks));
    all.extend(layout!(Record, "adf_entry": parent header size first protection date is_file name_length name
        comment_length comment));
    all.extend(layout!(Contents, "adf_contents": kind blocks used free entries data_blocks block root altered created
        label_length label));
    all.extend(layout!(FindingRecord, "adf_finding": first last node owner cause is_within));
    all.extend(layout!(FoundRecord, "adf_found": parent header size protection date is_file is_sound name_length name
        comment_length comment));
    all.extend(layout!(Surveyed, "adf_surveyed": kind blocks findings entries root altered created label_length label));
    all.extend(layout!(LinkRecord, "adf_link": node target path path_length header kind));
    all.extend(layout!(PartRecord, "adf_part": node number));
    all.extend(layout!(SubjectTold, "adf_subject": length held is_begun is_retyped));
    all.extend(layout!(PartitionRecord, "adf_partition": first blocks block flags priority dos_type fault name_length name));
    all.extend(layout!(LossRecord, "adf_loss": path path_length first last why));
    all.extend(layout!(RescueTold, "adf_rescue_told": losses paths blocks block));
    all.extend(layout!(DiskRecord, "adf_disk": partitions block cause));
    all.extend(layout!(AdditionRecord, "adf_addition": parent begin size protection date is_file name_length name comment_length
        comment));
    all.extend(layout!(NewVolume, "adf_new_volume": kind blocks root altered created label_length label));
    all.extend(layout!(Built, "adf_built": addition need have blocks));
    all.extend(layout!(BootRecord, "adf_boot_blocks": crc begins_with_dos volume_type has_right_sum is_bootable has_code));
    all.push(("ADF_BOOT_BYTES".to_owned(), BOOT_BYTES));
    all.extend(layout!(Moved, "adf_moved": input output errors output_full errors_full));
    all
}

/// A text of several lines as one line, with no marks of comments.
fn on_one_line(text: &str) -> String {
    let bare = |line: &'_ str| line.trim().trim_start_matches(['*', '/']).trim().to_lowercase();
    text.lines().map(bare).collect::<Vec<_>>().join(" ")
}

#[test]
fn citations_stand_in_the_header() {
    let header = on_one_line(include_str!("../../../../include/adf.h"));
    let folder = Path::new(env!("CARGO_MANIFEST_DIR")).join("src/ffi");
    let mut count = 0;
    for file in std::fs::read_dir(folder).unwrap() {
        let text = std::fs::read_to_string(file.unwrap().path()).unwrap();
        let comments: Vec<&str> = text.lines().filter(|line| line.trim().starts_with("// ")).collect();
        for citation in on_one_line(&comments.join("\n")).split('"').skip(1).step_by(2) {
            assert!(header.contains(citation), "{citation}");
            count += 1;
        }
    }
    assert!(count >= 20);
}

#[test]
fn structs_are_those_of_the_header() {
    // Only adf_verdict is not bound: adf_contents has all of it.
    let header = include_str!("../../../../include/adf.h");
    let structs = header.lines().filter_map(|line| line.strip_prefix("struct ")?.strip_suffix(" {"));
    for name in structs.filter(|name| *name != "adf_verdict") {
        assert!(layouts().iter().any(|(what, _)| *what == format!("sizeof(struct {name})")), "{name}");
    }
    let include = Path::new(env!("CARGO_MANIFEST_DIR")).join("../../include");
    let folder = std::env::temp_dir().join(format!("adf-layout-{}", std::process::id()));
    std::fs::create_dir(&folder).unwrap();
    let asserts: Vec<String> =
        layouts().iter().map(|(what, value)| format!("_Static_assert({what} == {value}, \"{what}\");")).collect();
    let text = format!("#include \"adf.h\"\n{}\n", asserts.join("\n"));
    std::fs::write(folder.join("layout.c"), text).unwrap();
    let compiled = Command::new("cc")
        .args(["-std=c11", "-fsyntax-only", "-I"])
        .arg(include)
        .arg(folder.join("layout.c"))
        .output()
        .expect("cc is needed");
    std::fs::remove_dir_all(&folder).unwrap();
    assert!(compiled.status.success(), "{}", String::from_utf8_lossy(&compiled.stderr));
}
