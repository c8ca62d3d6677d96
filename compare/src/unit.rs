//! The unit's calls through its C face. A slice is lent as pointer and length, an empty one with a null pointer; numbers
//! go through pointers to fresh numbers that are filled beforehand, so that a refusal that writes one is seen.

/// What a number shows before a call.
pub const UNSET_BYTE: u8 = 0xa5;
pub const UNSET_PLACE: u16 = 0xa5a5;
pub const UNSET_SIZE: usize = 0xa5a5_a5a5;
pub const UNSET_FIGURES: [u32; 3] = [0xa5a5_a5a1, 0xa5a5_a5a2, 0xa5a5_a5a3];

#[rustfmt::skip]
extern "C" {
    fn pelchunda_version() -> u32;
    fn pelchunda_start(
        store: *mut u8, store_len: usize, count: *mut usize, table: *const u8, table_len: usize, event: *const u8,
        event_len: usize,
    ) -> u8;
    fn pelchunda_take(
        store: *mut u8, store_len: usize, count: *mut usize, table: *const u8, table_len: usize, event: *const u8,
        event_len: usize, repeat: *mut u8,
    ) -> u8;
    fn pelchunda_take_counted(
        store: *mut u8, store_len: usize, count: *mut usize, table: *const u8, table_len: usize, event: *const u8,
        event_len: usize, repeat: *mut u8, tally: *mut [u32; 3],
    ) -> u8;
    fn pelchunda_take_bundle(
        store: *mut u8, store_len: usize, count: *mut usize, table: *const u8, table_len: usize, bundle: *const u8,
        bundle_len: usize, figures: *mut [u32; 3],
    ) -> u8;
    fn pelchunda_take_bundle_counted(
        store: *mut u8, store_len: usize, count: *mut usize, table: *const u8, table_len: usize, bundle: *const u8,
        bundle_len: usize, figures: *mut [u32; 3], tally: *mut [u32; 3],
    ) -> u8;
    fn pelchunda_look_up(
        store: *const u8, store_len: usize, count: usize, table: *const u8, table_len: usize, id: *const u8,
        id_len: usize, place: *mut u16,
    ) -> u8;
    fn pelchunda_order(
        store: *const u8, store_len: usize, count: usize, table: *const u8, table_len: usize, out: *mut u8,
        out_len: usize, rows: *mut usize,
    ) -> u8;
    fn pelchunda_verdict(
        store: *const u8, store_len: usize, count: usize, table: *const u8, table_len: usize, id: *const u8,
        id_len: usize, verdict: *mut u8,
    ) -> u8;
    fn pelchunda_map(
        store: *const u8, store_len: usize, count: usize, table: *const u8, table_len: usize, out: *mut u8,
        out_len: usize, rows: *mut usize, ended: *mut usize, joins: *mut usize,
    ) -> u8;
    fn pelchunda_write_out(
        store: *const u8, store_len: usize, count: usize, table: *const u8, table_len: usize, out: *mut u8,
        out_len: usize, bytes: *mut usize,
    ) -> u8;
    fn pelchunda_text(
        store: *const u8, store_len: usize, count: usize, table: *const u8, table_len: usize, out: *mut u8,
        out_len: usize, bytes: *mut usize,
    ) -> u8;
    fn pelchunda_document_table(out: *mut u8, out_len: usize) -> u8;
    fn pelchunda_first_event(bundle: *const u8, bundle_len: usize, offset: *mut usize) -> u8;
    fn pelchunda_id(event: *const u8, event_len: usize, id: *mut u8, id_len: usize) -> u8;
    fn pelchunda_ids(events: *const u8, events_len: usize, ids: *mut u8, ids_len: usize) -> u8;
}

/// Where the machine code of a call starts.
pub fn address(name: &str) -> *const () {
    match name {
        "version" => pelchunda_version as *const (),
        "start" => pelchunda_start as *const (),
        "take" => pelchunda_take as *const (),
        "take_counted" => pelchunda_take_counted as *const (),
        "take_bundle" => pelchunda_take_bundle as *const (),
        "take_bundle_counted" => pelchunda_take_bundle_counted as *const (),
        "look_up" => pelchunda_look_up as *const (),
        "order" => pelchunda_order as *const (),
        "verdict" => pelchunda_verdict as *const (),
        "map" => pelchunda_map as *const (),
        "write_out" => pelchunda_write_out as *const (),
        "text" => pelchunda_text as *const (),
        "document_table" => pelchunda_document_table as *const (),
        "first_event" => pelchunda_first_event as *const (),
        "id" => pelchunda_id as *const (),
        "ids" => pelchunda_ids as *const (),
        _ => panic!("no call has the name {name}"),
    }
}

/// The pointer under which a slice is lent.
#[inline(always)]
fn lent(bytes: &[u8]) -> *const u8 {
    if bytes.is_empty() {
        std::ptr::null()
    } else {
        bytes.as_ptr()
    }
}

#[inline(always)]
fn lent_mut(bytes: &mut [u8]) -> *mut u8 {
    if bytes.is_empty() {
        std::ptr::null_mut()
    } else {
        bytes.as_mut_ptr()
    }
}

// SAFETY, of each call below: every pointer comes from a slice or a reference of this call, lent with the slice's own
// length; the borrows keep them valid and apart.

/// The library's version, as one number.
pub fn version() -> u32 {
    unsafe { pelchunda_version() }
}

/// The number.
pub fn start(store: &mut [u8], count: &mut usize, table: &[u8], event: &[u8]) -> u8 {
    let (s, s_len) = (lent_mut(store), store.len());
    unsafe { pelchunda_start(s, s_len, count, lent(table), table.len(), lent(event), event.len()) }
}

/// The number, then 0 for stored or 1 for repeat.
pub fn take(store: &mut [u8], count: &mut usize, table: &[u8], event: &[u8]) -> (u8, u8) {
    let mut repeat = UNSET_BYTE;
    let n = unsafe {
        let (s, s_len) = (lent_mut(store), store.len());
        pelchunda_take(s, s_len, count, lent(table), table.len(), lent(event), event.len(), &mut repeat)
    };
    (n, repeat)
}

/// The same, with a tally.
pub fn take_counted(store: &mut [u8], count: &mut usize, table: &[u8], event: &[u8], tally: &mut [u32; 3]) -> (u8, u8) {
    let mut repeat = UNSET_BYTE;
    let n = unsafe {
        let (s, s_len) = (lent_mut(store), store.len());
        pelchunda_take_counted(s, s_len, count, lent(table), table.len(), lent(event), event.len(), &mut repeat, tally)
    };
    (n, repeat)
}

/// The number, then new, repeats, refused.
pub fn take_bundle(store: &mut [u8], count: &mut usize, table: &[u8], bundle: &[u8]) -> (u8, [u32; 3]) {
    let mut figures = UNSET_FIGURES;
    let n = unsafe {
        let (s, s_len) = (lent_mut(store), store.len());
        pelchunda_take_bundle(s, s_len, count, lent(table), table.len(), lent(bundle), bundle.len(), &mut figures)
    };
    (n, figures)
}

/// The same, with a tally.
pub fn take_bundle_counted(
    store: &mut [u8],
    count: &mut usize,
    table: &[u8],
    bundle: &[u8],
    tally: &mut [u32; 3],
) -> (u8, [u32; 3]) {
    let mut figures = UNSET_FIGURES;
    let n = unsafe {
        let (s, s_len, b, b_len) = (lent_mut(store), store.len(), lent(bundle), bundle.len());
        pelchunda_take_bundle_counted(s, s_len, count, lent(table), table.len(), b, b_len, &mut figures, tally)
    };
    (n, figures)
}

/// The number, then the place.
pub fn look_up(store: &[u8], count: usize, table: &[u8], id: &[u8]) -> (u8, u16) {
    let mut place = UNSET_PLACE;
    let n = unsafe {
        let (s, s_len) = (lent(store), store.len());
        pelchunda_look_up(s, s_len, count, lent(table), table.len(), lent(id), id.len(), &mut place)
    };
    (n, place)
}

/// The number, then the rows written.
pub fn order(store: &[u8], count: usize, table: &[u8], out: &mut [u8]) -> (u8, usize) {
    let mut rows = UNSET_SIZE;
    let n = unsafe {
        let (s, s_len) = (lent(store), store.len());
        pelchunda_order(s, s_len, count, lent(table), table.len(), lent_mut(out), out.len(), &mut rows)
    };
    (n, rows)
}

/// The number, then the verdict.
pub fn verdict(store: &[u8], count: usize, table: &[u8], id: &[u8]) -> (u8, u8) {
    let mut verdict = UNSET_BYTE;
    let n = unsafe {
        let (s, s_len) = (lent(store), store.len());
        pelchunda_verdict(s, s_len, count, lent(table), table.len(), lent(id), id.len(), &mut verdict)
    };
    (n, verdict)
}

/// The number, then the rows written, the links ended and the joins run.
pub fn map(store: &[u8], count: usize, table: &[u8], out: &mut [u8]) -> (u8, [usize; 3]) {
    let [mut rows, mut ended, mut joins] = [UNSET_SIZE, UNSET_SIZE + 1, UNSET_SIZE + 2];
    let n = unsafe {
        let (s, s_len, o, o_len) = (lent(store), store.len(), lent_mut(out), out.len());
        pelchunda_map(s, s_len, count, lent(table), table.len(), o, o_len, &mut rows, &mut ended, &mut joins)
    };
    (n, [rows, ended, joins])
}

/// The number, then the bytes written.
pub fn write_out(store: &[u8], count: usize, table: &[u8], out: &mut [u8]) -> (u8, usize) {
    let mut bytes = UNSET_SIZE;
    let n = unsafe {
        let (s, s_len) = (lent(store), store.len());
        pelchunda_write_out(s, s_len, count, lent(table), table.len(), lent_mut(out), out.len(), &mut bytes)
    };
    (n, bytes)
}

/// The number, then the bytes written.
pub fn text(store: &[u8], count: usize, table: &[u8], out: &mut [u8]) -> (u8, usize) {
    let mut bytes = UNSET_SIZE;
    let n = unsafe {
        let (s, s_len) = (lent(store), store.len());
        pelchunda_text(s, s_len, count, lent(table), table.len(), lent_mut(out), out.len(), &mut bytes)
    };
    (n, bytes)
}

/// The number; document 01's cord table goes to `out`.
pub fn document_table(out: &mut [u8]) -> u8 {
    unsafe { pelchunda_document_table(lent_mut(out), out.len()) }
}

/// The number, then where the event starts.
pub fn first_event(bundle: &[u8]) -> (u8, usize) {
    let mut offset = UNSET_SIZE;
    let n = unsafe { pelchunda_first_event(lent(bundle), bundle.len(), &mut offset) };
    (n, offset)
}

/// The number; the id goes to `id`.
pub fn id(event: &[u8], id: &mut [u8]) -> u8 {
    unsafe { pelchunda_id(lent(event), event.len(), lent_mut(id), id.len()) }
}

/// The number; the ids of the events go to `ids`.
pub fn ids(events: &[u8], ids: &mut [u8]) -> u8 {
    unsafe { pelchunda_ids(lent(events), events.len(), lent_mut(ids), ids.len()) }
}
