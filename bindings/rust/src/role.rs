use crate::numbered::numbered;

numbered! {
    /// Which part of the volume owns a block. The numbers are those of `enum adf_role` in include/adf.h.
    Role(u8):
    Free = 0,
    Boot = 1,
    Root = 2,
    Page = 3,
    MapExt = 4,
    Head = 5,
    Ext = 6,
    Data = 7,
}

numbered! {
    /// How the data blocks of a volume are written. The numbers are those of `enum adf_kind` in include/adf.h.
    Kind(u32):
    Ofs = 0,
    Ffs = 1,
    /// OFS whose names have international letters.
    OfsInternational = 2,
    /// FFS whose names have international letters.
    FfsInternational = 3,
    /// OFS whose directories have caches, and its names international letters.
    OfsCached = 4,
    /// FFS whose directories have caches, and its names international letters.
    FfsCached = 5,
}
