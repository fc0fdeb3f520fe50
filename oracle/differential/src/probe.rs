//! The port's inner functions, by librook_probe.a.

#[repr(C)]
#[derive(Debug, Clone, Copy, PartialEq, Eq)]
pub struct LayoutProbe {
    pub number: u32,
    pub place: usize,
    pub columns: usize,
    pub varlens: usize,
    pub packed: usize,
    pub padded: usize,
}

/// A refusal's number, or 0 and how many bytes were put at the output's front.
#[repr(C)]
#[derive(Debug, Clone, Copy, PartialEq, Eq)]
pub struct ValueProbe {
    pub number: u32,
    pub length: usize,
}

unsafe extern "C" {
    fn rook_probe_layout(schema: *const u8, schema_length: usize) -> LayoutProbe;

    fn rook_probe_store(
        schema: *const u8,
        schema_length: usize,
        list: *const u8,
        list_length: usize,
        area: *const u8,
        area_length: usize,
        out: *mut u8,
        out_length: usize,
    ) -> ValueProbe;

    fn rook_probe_slot(
        schema: *const u8,
        schema_length: usize,
        bytes: *const u8,
        bytes_length: usize,
        start: usize,
        out: *mut u8,
        out_length: usize,
    ) -> ValueProbe;
}

/// The refusal of a schema, or its counts and the bytes of its fixed columns.
pub fn layout(schema: &[u8]) -> LayoutProbe {
    // SAFETY: pointer and length are those of a slice, which is only read.
    unsafe { rook_probe_layout(schema.as_ptr(), schema.len()) }
}

/// The stored form of a list's one value under a schema's one type.
pub fn store(schema: &[u8], list: &[u8], area: &[u8], out: &mut [u8]) -> ValueProbe {
    // SAFETY: pointers and lengths are those of slices; only `out`, which no
    // other overlaps, is written to.
    unsafe {
        rook_probe_store(
            schema.as_ptr(),
            schema.len(),
            list.as_ptr(),
            list.len(),
            area.as_ptr(),
            area.len(),
            out.as_mut_ptr(),
            out.len(),
        )
    }
}

/// The record of what bytes read as under a schema's one type.
pub fn slot(schema: &[u8], bytes: &[u8], start: usize, out: &mut [u8]) -> ValueProbe {
    // SAFETY: as above.
    unsafe {
        rook_probe_slot(
            schema.as_ptr(),
            schema.len(),
            bytes.as_ptr(),
            bytes.len(),
            start,
            out.as_mut_ptr(),
            out.len(),
        )
    }
}
