//! The calls of libctfd.a, as clients/c/ctfd.h declares them. scripts/raw.py writes this file.
#![allow(dead_code)] // the crate does not use all of them

use std::os::raw::c_void;

/// A handle: `struct ctfd`, or `struct ctfd_service`.
#[repr(C)]
pub struct Handle {
    pub full: bool,
    pub at: *mut c_void,
}

impl Handle {
    /// The initial value of each handle.
    pub const NONE: Handle = Handle { full: false, at: std::ptr::null_mut() };
}

#[repr(C)]
#[derive(Default)]
pub struct Label {
    pub name_len: u64,
    pub last: u32,
}

/// A row for a label. The list with its name is the dictionary's own.
#[repr(C)]
#[derive(Clone, Copy, Debug, Default, PartialEq, Eq)]
pub struct LabelRow {
    /// The offset of its name in the list, in bytes.
    pub name_at: u64,
    /// The list that has its name: a number of `enum ctfd_list`.
    pub name_list: u32,
    /// The last type that it covers.
    pub last: u32,
}

#[repr(C)]
#[derive(Default)]
pub struct Encoding {
    pub encoding: u32,
    pub offset: u32,
    pub bits: u32,
}

#[repr(C)]
#[derive(Default)]
pub struct Array {
    pub count: u32,
    pub contents: u16,
    pub index: u16,
}

#[repr(C)]
#[derive(Default)]
pub struct Member {
    pub offset: u64,
    pub name_len: u64,
    pub tnum: u16,
}

/// A row for a member of a struct or union.
#[repr(C)]
#[derive(Clone, Copy, Debug, Default, PartialEq, Eq)]
pub struct MemberRow {
    /// Its offset in bits.
    pub offset: u64,
    /// The offset of its name in the list, in bytes.
    pub name_at: u64,
    /// The list that has its name: a number of `enum ctfd_list`.
    pub name_list: u32,
    /// The number of its type.
    pub tnum: u16,
}

/// A row for an enumerator.
#[repr(C)]
#[derive(Clone, Copy, Debug, Default, PartialEq, Eq)]
pub struct EnumeratorRow {
    /// The offset of its name in the list, in bytes.
    pub name_at: u64,
    /// The list that has its name: a number of `enum ctfd_list`.
    pub name_list: u32,
    /// Its value.
    pub value: i32,
}

/// A row for one of the dictionary's own types. The size, the alignment, the resolved type and the
/// reference come with the status of the call that gives only this, such as ctfd_size; if it is a
/// refusal, the number is 0.
#[repr(C)]
#[derive(Clone, Copy, Debug, Default, PartialEq, Eq)]
pub struct TypeRow {
    /// Its size in bytes.
    pub size: u64,
    /// Its alignment in bytes.
    pub align: u64,
    /// The number of its members, enumerators or arguments.
    pub length: u64,
    /// The offset of the name in its record, in bytes of the list.
    pub name_at: u64,
    /// The list that has the name: a number of `enum ctfd_list`.
    pub name_list: u32,
    /// Its kind: a number of `enum ctfd_kind`.
    pub kind: u32,
    /// 1 if look-ups by name find it, else 0.
    pub root: u32,
    /// The status of ctfd_size.
    pub size_status: u32,
    /// The status of ctfd_align.
    pub align_status: u32,
    /// The status of ctfd_resolve.
    pub resolved_status: u32,
    /// The status of ctfd_reference.
    pub reference_status: u32,
    /// Its number.
    pub tnum: u16,
    /// The number of the type that it resolves to.
    pub resolved: u16,
    /// The number of the type that it points to, renames or qualifies.
    pub reference: u16,
}

/// A row of a visit: a member of the struct or union `holder`. `stands_for` is what ctfd_resolve
/// gives for the member's type, 0 if that is refused. `offset` is UINT64_MAX past 64 bits. The
/// lists with the name are those of the dictionary that has `holder`. The outermost type comes
/// first, with depth 0, without a name, and as its own holder.
#[repr(C)]
#[derive(Clone, Copy, Debug, Default, PartialEq, Eq)]
pub struct VisitRow {
    /// Its offset from the beginning of the outermost type, in bits.
    pub offset: u64,
    /// The offset of its name in the list, in bytes.
    pub name_at: u64,
    /// The list that has its name: a number of `enum ctfd_list`.
    pub name_list: u32,
    /// The number of structs and unions around it.
    pub depth: u32,
    /// The number of its type.
    pub tnum: u16,
    /// The number of the struct or union that it is a member of.
    pub holder: u16,
    /// The type that its type resolves to; 0 if that is none.
    pub stands_for: u16,
}

#[repr(C)]
#[derive(Default)]
pub struct Function {
    pub arguments: u64,
    pub varargs: u32,
    pub ret: u16,
}

/// A row for a symbol. The type is the return type of a function, with the status of ctfd_function,
/// or else the type of an object, with the status of ctfd_object; if that is a refusal, the type is
/// 0. The list with its name is the dictionary's own.
#[repr(C)]
#[derive(Clone, Copy, Debug, Default, PartialEq, Eq)]
pub struct SymbolRow {
    /// The offset of its name in the list, in bytes.
    pub name_at: u64,
    /// The list that has its name: 1, or 2 if it has none.
    pub name_list: u32,
    /// Its number.
    pub number: u32,
    /// Its class: a number of `enum ctfd_symbol_class`.
    pub symbol_class: u32,
    /// The status of its type.
    pub type_status: u32,
    /// The number of its type.
    pub tnum: u16,
}

extern "C" {
    pub fn ctfd_open(
        handle: *mut Handle,
        ctf: *const u8,
        ctf_len: usize,
        sym: *const u8,
        sym_len: usize,
        strs: *const u8,
        strs_len: usize,
        has_sym: bool,
        has_strs: bool,
        ilp32: bool,
        place: *mut u64,
    ) -> u32;
    pub fn ctfd_open_lent(
        handle: *mut Handle,
        ctf: *const u8,
        ctf_len: usize,
        sym: *const u8,
        sym_len: usize,
        strs: *const u8,
        strs_len: usize,
        has_sym: bool,
        has_strs: bool,
        ilp32: bool,
        place: *mut u64,
    ) -> u32;
    pub fn ctfd_close(handle: *mut Handle);
    pub fn ctfd_import(handle: *mut Handle, parent: *mut Handle, place: *mut u64) -> u32;
    pub fn ctfd_count(handle: *mut Handle, out: *mut u64) -> u32;
    pub fn ctfd_child(handle: *mut Handle, out: *mut u32) -> u32;
    pub fn ctfd_parent_count(handle: *mut Handle, out: *mut u64) -> u32;
    pub fn ctfd_model(handle: *mut Handle, out: *mut u32) -> u32;
    pub fn ctfd_parent_name(
        handle: *mut Handle,
        text: *mut u8,
        text_len: usize,
        len: *mut u64,
    ) -> u32;
    pub fn ctfd_parent_label(
        handle: *mut Handle,
        text: *mut u8,
        text_len: usize,
        len: *mut u64,
    ) -> u32;
    pub fn ctfd_label_count(handle: *mut Handle, out: *mut u64) -> u32;
    pub fn ctfd_label(
        handle: *mut Handle,
        index: usize,
        name: *mut u8,
        name_len: usize,
        out: *mut Label,
    ) -> u32;
    pub fn ctfd_label_last(
        handle: *mut Handle,
        name: *const u8,
        name_len: usize,
        out: *mut u32,
    ) -> u32;
    pub fn ctfd_labels(
        handle: *mut Handle,
        from: usize,
        rows: *mut LabelRow,
        rows_len: usize,
        count: *mut u64,
    ) -> u32;
    pub fn ctfd_kind(handle: *mut Handle, t: u16, out: *mut u32) -> u32;
    pub fn ctfd_declared_name(
        handle: *mut Handle,
        t: u16,
        text: *mut u8,
        text_len: usize,
        len: *mut u64,
    ) -> u32;
    pub fn ctfd_root(handle: *mut Handle, t: u16, out: *mut u32) -> u32;
    pub fn ctfd_reference(handle: *mut Handle, t: u16, out: *mut u16) -> u32;
    pub fn ctfd_tag(handle: *mut Handle, t: u16, out: *mut u32) -> u32;
    pub fn ctfd_encoding(handle: *mut Handle, t: u16, out: *mut Encoding) -> u32;
    pub fn ctfd_array(handle: *mut Handle, t: u16, out: *mut Array) -> u32;
    pub fn ctfd_length(handle: *mut Handle, t: u16, out: *mut u64) -> u32;
    pub fn ctfd_member(
        handle: *mut Handle,
        t: u16,
        index: usize,
        name: *mut u8,
        name_len: usize,
        out: *mut Member,
    ) -> u32;
    pub fn ctfd_enumerator(
        handle: *mut Handle,
        t: u16,
        index: usize,
        name: *mut u8,
        name_len: usize,
        value: *mut i32,
        len: *mut u64,
    ) -> u32;
    pub fn ctfd_enum_name(
        handle: *mut Handle,
        t: u16,
        value: i32,
        text: *mut u8,
        text_len: usize,
        len: *mut u64,
    ) -> u32;
    pub fn ctfd_enum_value(
        handle: *mut Handle,
        t: u16,
        name: *const u8,
        name_len: usize,
        value: *mut i32,
    ) -> u32;
    pub fn ctfd_members(
        handle: *mut Handle,
        t: u16,
        from: usize,
        rows: *mut MemberRow,
        rows_len: usize,
        count: *mut u64,
    ) -> u32;
    pub fn ctfd_enumerators(
        handle: *mut Handle,
        t: u16,
        from: usize,
        rows: *mut EnumeratorRow,
        rows_len: usize,
        count: *mut u64,
    ) -> u32;
    pub fn ctfd_types(
        handle: *mut Handle,
        from: usize,
        rows: *mut TypeRow,
        rows_len: usize,
        count: *mut u64,
    ) -> u32;
    pub fn ctfd_visit(
        handle: *mut Handle,
        t: u16,
        rows: *mut VisitRow,
        rows_len: usize,
        count: *mut u64,
    ) -> u32;
    pub fn ctfd_return(handle: *mut Handle, t: u16, out: *mut u16) -> u32;
    pub fn ctfd_argument(handle: *mut Handle, t: u16, index: usize, out: *mut u16) -> u32;
    pub fn ctfd_arguments(
        handle: *mut Handle,
        t: u16,
        from: usize,
        rows: *mut u16,
        rows_len: usize,
        count: *mut u64,
    ) -> u32;
    pub fn ctfd_resolve(handle: *mut Handle, t: u16, out: *mut u16) -> u32;
    pub fn ctfd_size(handle: *mut Handle, t: u16, out: *mut u64) -> u32;
    pub fn ctfd_align(handle: *mut Handle, t: u16, out: *mut u64) -> u32;
    pub fn ctfd_field(
        handle: *mut Handle,
        t: u16,
        name: *const u8,
        name_len: usize,
        offset: *mut u64,
        to: *mut u16,
    ) -> u32;
    pub fn ctfd_path(
        handle: *mut Handle,
        t: u16,
        names: *const u8,
        names_len: usize,
        offset: *mut u64,
        to: *mut u16,
        place: *mut u64,
    ) -> u32;
    pub fn ctfd_name(
        handle: *mut Handle,
        t: u16,
        text: *mut u8,
        text_len: usize,
        len: *mut u64,
    ) -> u32;
    pub fn ctfd_show(
        handle: *mut Handle,
        t: u16,
        memory: *const u8,
        memory_len: usize,
        offset: u64,
        text: *mut u8,
        text_len: usize,
        len: *mut u64,
    ) -> u32;
    pub fn ctfd_find(handle: *mut Handle, text: *const u8, text_len: usize, out: *mut u16) -> u32;
    pub fn ctfd_pointer(handle: *mut Handle, t: u16, out: *mut u16) -> u32;
    pub fn ctfd_symbol(handle: *mut Handle, name: *const u8, name_len: usize, out: *mut u32)
        -> u32;
    pub fn ctfd_symbol_name(
        handle: *mut Handle,
        number: u32,
        text: *mut u8,
        text_len: usize,
        len: *mut u64,
    ) -> u32;
    pub fn ctfd_object(handle: *mut Handle, number: u32, out: *mut u16) -> u32;
    pub fn ctfd_function(handle: *mut Handle, number: u32, out: *mut Function) -> u32;
    pub fn ctfd_function_argument(
        handle: *mut Handle,
        number: u32,
        index: usize,
        out: *mut u16,
    ) -> u32;
    pub fn ctfd_signature(handle: *mut Handle, t: u16, out: *mut Function) -> u32;
    pub fn ctfd_function_arguments(
        handle: *mut Handle,
        number: u32,
        from: usize,
        rows: *mut u16,
        rows_len: usize,
        count: *mut u64,
    ) -> u32;
    pub fn ctfd_symbols(
        handle: *mut Handle,
        from: usize,
        rows: *mut SymbolRow,
        rows_len: usize,
        count: *mut u64,
    ) -> u32;
    pub fn ctfd_create(handle: *mut Handle, ilp32: bool, place: *mut u64) -> u32;
    pub fn ctfd_create_child(
        handle: *mut Handle,
        parent: *mut Handle,
        parname: *const u8,
        parname_len: usize,
        parlabel: *const u8,
        parlabel_len: usize,
        place: *mut u64,
    ) -> u32;
    pub fn ctfd_add_integer(
        handle: *mut Handle,
        name: *const u8,
        name_len: usize,
        root: bool,
        encoding: u8,
        offset: u8,
        bits: u16,
        size: u64,
        out: *mut u16,
    ) -> u32;
    pub fn ctfd_add_float(
        handle: *mut Handle,
        name: *const u8,
        name_len: usize,
        root: bool,
        encoding: u8,
        offset: u8,
        bits: u16,
        size: u64,
        out: *mut u16,
    ) -> u32;
    pub fn ctfd_add_pointer(
        handle: *mut Handle,
        name: *const u8,
        name_len: usize,
        root: bool,
        to: u16,
        out: *mut u16,
    ) -> u32;
    pub fn ctfd_add_typedef(
        handle: *mut Handle,
        name: *const u8,
        name_len: usize,
        root: bool,
        to: u16,
        out: *mut u16,
    ) -> u32;
    pub fn ctfd_add_volatile(
        handle: *mut Handle,
        name: *const u8,
        name_len: usize,
        root: bool,
        to: u16,
        out: *mut u16,
    ) -> u32;
    pub fn ctfd_add_const(
        handle: *mut Handle,
        name: *const u8,
        name_len: usize,
        root: bool,
        to: u16,
        out: *mut u16,
    ) -> u32;
    pub fn ctfd_add_restrict(
        handle: *mut Handle,
        name: *const u8,
        name_len: usize,
        root: bool,
        to: u16,
        out: *mut u16,
    ) -> u32;
    pub fn ctfd_add_array(
        handle: *mut Handle,
        name: *const u8,
        name_len: usize,
        root: bool,
        contents: u16,
        index: u16,
        count: u32,
        out: *mut u16,
    ) -> u32;
    pub fn ctfd_add_function(
        handle: *mut Handle,
        name: *const u8,
        name_len: usize,
        root: bool,
        ret: u16,
        args: *const u16,
        args_len: usize,
        out: *mut u16,
    ) -> u32;
    pub fn ctfd_add_struct(
        handle: *mut Handle,
        name: *const u8,
        name_len: usize,
        root: bool,
        size: u64,
        out: *mut u16,
    ) -> u32;
    pub fn ctfd_add_union(
        handle: *mut Handle,
        name: *const u8,
        name_len: usize,
        root: bool,
        size: u64,
        out: *mut u16,
    ) -> u32;
    pub fn ctfd_add_enum(
        handle: *mut Handle,
        name: *const u8,
        name_len: usize,
        root: bool,
        size: u64,
        out: *mut u16,
    ) -> u32;
    pub fn ctfd_add_forward(
        handle: *mut Handle,
        name: *const u8,
        name_len: usize,
        root: bool,
        tag: u32,
        out: *mut u16,
    ) -> u32;
    pub fn ctfd_add_unknown(
        handle: *mut Handle,
        name: *const u8,
        name_len: usize,
        root: bool,
        out: *mut u16,
    ) -> u32;
    pub fn ctfd_add_member(
        handle: *mut Handle,
        t: u16,
        name: *const u8,
        name_len: usize,
        tnum: u16,
        has_offset: bool,
        offset: u64,
        out: *mut u64,
    ) -> u32;
    pub fn ctfd_add_member_at(
        handle: *mut Handle,
        t: u16,
        name: *const u8,
        name_len: usize,
        tnum: u16,
        offset: u64,
        size: u64,
    ) -> u32;
    pub fn ctfd_add_enumerator(
        handle: *mut Handle,
        t: u16,
        name: *const u8,
        name_len: usize,
        value: i32,
    ) -> u32;
    pub fn ctfd_add_label(handle: *mut Handle, name: *const u8, name_len: usize, last: u32) -> u32;
    pub fn ctfd_update(handle: *mut Handle, types: *mut u64, place: *mut u64) -> u32;
    pub fn ctfd_discard(handle: *mut Handle, types: *mut u64) -> u32;
    pub fn ctfd_bytes(
        handle: *mut Handle,
        from: u64,
        bytes: *mut u8,
        bytes_len: usize,
        len: *mut u64,
    ) -> u32;
    pub fn ctfd_begin(handle: *mut Handle) -> u32;
    pub fn ctfd_end(handle: *mut Handle);
    pub fn ctfd_line(
        handle: *mut Handle,
        line: *const u8,
        line_len: usize,
        text: *mut u8,
        text_len: usize,
        len: *mut u64,
    ) -> u32;
    pub fn ctfd_line_as(
        handle: *mut Handle,
        session: u32,
        line: *const u8,
        line_len: usize,
        text: *mut u8,
        text_len: usize,
        len: *mut u64,
    ) -> u32;
    pub fn ctfd_load(
        handle: *mut Handle,
        name: *const u8,
        name_len: usize,
        ctf: *const u8,
        ctf_len: usize,
    ) -> u32;
    pub fn ctfd_leave(handle: *mut Handle, session: u32) -> u32;
    pub fn ctfd_reply(handle: *mut Handle, text: *mut u8, text_len: usize, len: *mut u64) -> u32;
}
