// The C calls of the proved archive, with the sizes and refusals of include/plant.h. A slice passes as a pointer and a length.
pub const LONGEST: usize = 127;
pub const FIELD: usize = 32;
pub const LABEL: usize = 3 * FIELD;
pub const ROW: usize = 3;
pub const MOST: usize = 4_096;
pub const DEEPEST: u32 = 63;
pub const HEADER: usize = 8;
pub const ENTRY: usize = 104;
pub const START: usize = 8;
pub const END: usize = START + FIELD;
pub const PARENT: usize = END + FIELD;

pub const IDENTITY: i32 = -100_003;
pub const ROOM: i32 = -100_004;
pub const NO_REGISTER: i32 = -100_005;
pub const NO_TARGET: i32 = -100_006;
pub const ROOT: i32 = -100_007;
pub const CODE_LENGTH: i32 = -100_008;
pub const CHILDREN: i32 = -100_009;
pub const DEPTH: i32 = -100_010;
pub const NO_LABEL: i32 = -100_011;
pub const NO_CODE: i32 = -100_012;
pub const NOT_BELOW: i32 = -100_013;

#[derive(Clone, Copy, Debug, PartialEq)]
pub enum Place {
    First,
    Last,
    Before,
    After,
}

#[derive(Clone, Copy, Debug)]
pub enum Edit {
    Insert { place: Place, target: u32, identity: u32, tag: u32 },
    Delete { target: u32 },
}

mod host {
    type Insert = unsafe extern "C" fn(register: *mut u8, len: usize, target: u32, identity: u32, tag: u32) -> i32;

    extern "C" {
        pub fn plant_order(u: *const u8, u_len: usize, v: *const u8, v_len: usize) -> i32;
        pub fn plant_above(u: *const u8, u_len: usize, v: *const u8, v_len: usize) -> i32;
        pub fn plant_parent(u: *const u8, u_len: usize, v: *const u8, v_len: usize) -> i32;
        pub fn plant_sibling(u: *const u8, u_len: usize, v: *const u8, v_len: usize) -> i32;
        pub fn plant_pack(digits: *const u8, n: usize, field: *mut u8, len: usize) -> i32;
        pub fn plant_unpack(field: *const u8, len: usize, digits: *mut u8, n: usize) -> i32;
        pub fn plant_between(l: *const u8, l_len: usize, r: *const u8, r_len: usize, field: *mut u8, len: usize)
            -> i32;
        pub fn plant_label(table: *const u32, numbers: usize, register: *mut u8, len: usize) -> i64;
        pub fn plant_place(register: *const u8, len: usize, identity: u32) -> i32;
        pub fn plant_depth(register: *const u8, len: usize, identity: u32) -> i32;
        pub fn plant_distance(register: *const u8, len: usize, x: u32, y: u32) -> i32;
        fn plant_insert_first(register: *mut u8, len: usize, target: u32, identity: u32, tag: u32) -> i32;
        fn plant_insert_last(register: *mut u8, len: usize, target: u32, identity: u32, tag: u32) -> i32;
        fn plant_insert_before(register: *mut u8, len: usize, target: u32, identity: u32, tag: u32) -> i32;
        fn plant_insert_after(register: *mut u8, len: usize, target: u32, identity: u32, tag: u32) -> i32;
        pub fn plant_delete(register: *mut u8, len: usize, target: u32) -> i32;
    }

    // In the order of the enum of places.
    pub const INSERT: [Insert; 4] = [plant_insert_first, plant_insert_last, plant_insert_before, plant_insert_after];
}

// SAFETY, here and below: each pointer is good for the length beside it, and what is written is borrowed alone.
macro_rules! of_labels {
    ($name:ident, $call:ident) => {
        #[inline(always)]
        pub fn $name(u: &[u8], v: &[u8]) -> i32 {
            unsafe { host::$call(u.as_ptr(), u.len(), v.as_ptr(), v.len()) }
        }
    };
}

of_labels!(order, plant_order);
of_labels!(above, plant_above);
of_labels!(parent, plant_parent);
of_labels!(sibling, plant_sibling);

#[inline(always)]
pub fn pack(digits: &[u8], field: &mut [u8]) -> i32 {
    unsafe { host::plant_pack(digits.as_ptr(), digits.len(), field.as_mut_ptr(), field.len()) }
}

#[inline(always)]
pub fn unpack(field: &[u8], digits: &mut [u8]) -> i32 {
    unsafe { host::plant_unpack(field.as_ptr(), field.len(), digits.as_mut_ptr(), digits.len()) }
}

#[inline(always)]
pub fn between(left: &[u8], right: &[u8], field: &mut [u8]) -> i32 {
    let (l, r) = (left.len(), right.len());
    unsafe { host::plant_between(left.as_ptr(), l, right.as_ptr(), r, field.as_mut_ptr(), field.len()) }
}

pub fn label(table: &[u32], register: &mut [u8]) -> i64 {
    unsafe { host::plant_label(table.as_ptr(), table.len(), register.as_mut_ptr(), register.len()) }
}

pub fn place(register: &[u8], identity: u32) -> i32 {
    unsafe { host::plant_place(register.as_ptr(), register.len(), identity) }
}

pub fn depth(register: &[u8], identity: u32) -> i32 {
    unsafe { host::plant_depth(register.as_ptr(), register.len(), identity) }
}

pub fn distance(register: &[u8], x: u32, y: u32) -> i32 {
    unsafe { host::plant_distance(register.as_ptr(), register.len(), x, y) }
}

pub fn apply(register: &mut [u8], edit: Edit) -> i32 {
    let (at, len) = (register.as_mut_ptr(), register.len());
    match edit {
        Edit::Insert { place, target, identity, tag } => unsafe {
            host::INSERT[place as usize](at, len, target, identity, tag)
        },
        Edit::Delete { target } => unsafe { host::plant_delete(at, len, target) },
    }
}
