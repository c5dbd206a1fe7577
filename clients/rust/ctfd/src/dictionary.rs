//! Open dictionaries.

use crate::faults::{outcome_of, told_at, Refusal};
use crate::input_lists::InputLists;
use crate::names::{text, Name};
use crate::raw::{self, LabelRow, SymbolRow, TypeRow};
use crate::types::Type;
use std::cell::UnsafeCell;
use std::fmt;
use std::iter::FusedIterator;

/// The number of the first type of a child.
const FIRST_OF_CHILD: u16 = 32_769;

/// The data model of a program: the size of its pointers.
#[derive(Clone, Copy, Debug, Default, PartialEq, Eq, Hash)]
pub enum Model {
    /// 8 bytes.
    #[default]
    Lp64,
    /// 4 bytes.
    Ilp32,
}

/// Options for opening a dictionary: what goes with its CTF section in the program.
#[derive(Clone, Copy, Debug, Default)]
pub struct Options<'a> {
    /// The program's symbol table, of ELF64.
    pub symbols: Option<&'a [u8]>,
    /// The strings of the symbol table. The dictionary's names may be in them too.
    pub strings: Option<&'a [u8]>,
    /// The data model of the program.
    pub model: Model,
}

/// An open dictionary. [`open`](Dictionary::open) checks and copies its bytes;
/// [`open_lent`](Dictionary::open_lent) checks them and borrows them for `'b`.
pub struct Dictionary<'b> {
    raw: UnsafeCell<raw::Handle>,
    // The lists that the library reads as long as the handle is open; `None` for a draft.
    given: Option<InputLists<'b>>,
    // The lists of the imported parent.
    parents: Option<InputLists<'b>>,
}

// SAFETY: an open dictionary may be used on any thread, one call at a time. Only a child and its
// parent share counts that are for one thread, and no two dictionaries of this crate share one:
// `import` and `Draft::child` open the parent's lists anew for the child. The type is not `Sync`,
// since nothing else may use what is open during a call.
unsafe impl Send for Dictionary<'_> {}

impl Dictionary<'static> {
    /// Opens the CTF section of a program, without symbols, for the data model LP64. The bytes are
    /// copied.
    ///
    /// # Errors
    ///
    /// The fault of the first rule that the dictionary breaks, [`TooShort`](crate::Fault::TooShort)
    /// to [`BadSymtab`](crate::Fault::BadSymtab), with its place; or
    /// [`Memory`](crate::Fault::Memory).
    pub fn open(ctf: &[u8]) -> Result<Dictionary<'static>, Refusal> {
        Dictionary::open_with(ctf, Options::default())
    }

    /// Opens the CTF section of a program with its symbols and strings. The bytes are copied.
    pub fn open_with(ctf: &[u8], options: Options<'_>) -> Result<Dictionary<'static>, Refusal> {
        Dictionary::over(InputLists::of_copies(ctf, options))
    }
}

impl<'b> Dictionary<'b> {
    /// Opens the CTF section of a program with its symbols and strings, and borrows the bytes: for
    /// mapped files. Lists that overlap are copied.
    ///
    /// ```
    /// let bytes = std::fs::read("../../../examples/lua.ctf").unwrap();
    /// let types = ctfd::Dictionary::open_lent(&bytes, Default::default()).unwrap();
    /// assert!(types.find("struct lua_State").is_ok());
    /// ```
    ///
    /// The bytes are borrowed as long as the dictionary, or a child of it, is open:
    ///
    /// ```compile_fail,E0505
    /// let bytes = std::fs::read("../../../examples/lua.ctf").unwrap();
    /// let types = ctfd::Dictionary::open_lent(&bytes, Default::default()).unwrap();
    /// drop(bytes);
    /// types.count();
    /// ```
    pub fn open_lent(ctf: &'b [u8], options: Options<'b>) -> Result<Dictionary<'b>, Refusal> {
        Dictionary::over(InputLists::of_borrowed(ctf, options))
    }

    /// Opens lists, which stay where they are as long as the dictionary is open.
    fn over(given: InputLists<'b>) -> Result<Dictionary<'b>, Refusal> {
        let mut made = Dictionary::none();
        let (ctf, symbols, strings) = (given.ctf(), given.symbols(), given.strings());
        let (symbols_at, strings_at) = (symbols.unwrap_or_default(), strings.unwrap_or_default());
        let mut place = 0;
        // SAFETY: the handle is this function's own and initially empty. The lists share no byte.
        // From here on the dictionary keeps them, or their owner does for `'b`; a slice's pointer
        // is never null.
        let status = unsafe {
            raw::ctfd_open_lent(
                made.handle(),
                ctf.as_ptr(),
                ctf.len(),
                symbols_at.as_ptr(),
                symbols_at.len(),
                strings_at.as_ptr(),
                strings_at.len(),
                symbols.is_some(),
                strings.is_some(),
                given.model() == Model::Ilp32,
                &mut place,
            )
        };
        told_at(status, place)?;
        made.given = Some(given);
        Ok(made)
    }

    /// A handle with nothing open.
    pub(crate) fn none() -> Dictionary<'b> {
        Dictionary { raw: UnsafeCell::new(raw::Handle::NONE), given: None, parents: None }
    }

    /// Opens the dictionary once more, without a parent. The new one shares nothing with this one
    /// but the lists.
    pub(crate) fn again(&self) -> Result<Dictionary<'b>, Refusal> {
        match &self.given {
            Some(given) => Dictionary::over(given.clone()),
            None => {
                let options = Options { model: self.model(), ..Options::default() };
                Dictionary::over(InputLists::of_copies(&self.bytes(), options))
            }
        }
    }

    /// Keeps the lists of the handle's parent as long as the handle is open.
    pub(crate) fn keep(&mut self, parent: Dictionary<'b>) {
        self.parents = parent.given.clone();
    }

    /// The handle, for one call.
    ///
    /// While a call runs, nothing else may use what is open, so no other call may begin until it
    /// ends. None does: this type is not `Sync`, and no call calls back.
    pub(crate) fn handle(&self) -> *mut raw::Handle {
        self.raw.get()
    }

    /// Imports a parent, in its present state, in place of an earlier one. The lists of both are
    /// shared, but the parent is opened once more for this dictionary, which takes as long as
    /// [`open_lent`](Dictionary::open_lent).
    pub fn import(&mut self, parent: &Dictionary<'b>) -> Result<(), Refusal> {
        let (own, mut place) = (parent.again()?, 0);
        // SAFETY: the handles are two, and nobody else borrows either. The lists of the imported
        // parent are kept from here on.
        let status = unsafe { raw::ctfd_import(self.handle(), own.handle(), &mut place) };
        told_at(status, place)?;
        self.keep(own);
        Ok(())
    }

    /// The number of own types.
    pub fn count(&self) -> usize {
        certain(self.answer_of(raw::ctfd_count)) as usize
    }

    /// Fills rows with the own types from number `from` on, counted from 0, and returns the number
    /// of all own types. Rows after the last type are unchanged.
    pub fn type_rows(&self, from: usize, rows: &mut [TypeRow]) -> u64 {
        certain(self.fill_rows(raw::ctfd_types, from, rows))
    }

    /// The name to which a row refers: `number` is that of the row's type, or of the type whose
    /// member or enumerator the row is, `list` and `at` are the row's `name_list` and `name_at`.
    /// `None` if the lists are those of a draft. Panics if `at` is past the end of the list.
    ///
    /// ```
    /// let types = ctfd::Dictionary::open(&std::fs::read("../../../examples/lua.ctf").unwrap()).unwrap();
    /// let mut rows = [ctfd::TypeRow::default()];
    /// types.type_rows(0, &mut rows);
    /// let name = types.name_at(rows[0].tnum, rows[0].name_list, rows[0].name_at);
    /// assert_eq!(name, Some(&types.get(1).unwrap().declared_name().unwrap()[..]));
    /// ```
    pub fn name_at(&self, number: u16, list: u32, at: u64) -> Option<&[u8]> {
        let is_parents = number < FIRST_OF_CHILD && self.is_child();
        let given = if is_parents { &self.parents } else { &self.given };
        given.as_ref().map(|given| given.name(list, at))
    }

    /// Fills rows with the symbols of the program from number `from` on, including those without
    /// type information, and returns the number of all symbols. Rows after the last symbol are
    /// unchanged.
    pub fn symbol_rows(&self, from: usize, rows: &mut [SymbolRow]) -> u64 {
        certain(self.fill_rows(raw::ctfd_symbols, from, rows))
    }

    /// Fills rows with the labels from number `from` on, and returns the number of all labels. Rows
    /// after the last label are unchanged.
    pub fn label_rows(&self, from: usize, rows: &mut [LabelRow]) -> u64 {
        certain(self.fill_rows(raw::ctfd_labels, from, rows))
    }

    /// Fills rows with the type numbers of a function's arguments, from argument `from` on, and
    /// returns the number of all its arguments. `symbol` is the number of the function's symbol.
    /// Rows after the last argument are unchanged.
    pub fn function_argument_rows(
        &self,
        symbol: u32,
        from: usize,
        rows: &mut [u16],
    ) -> Result<u64, Refusal> {
        let (at, len, mut count) = (rows.as_mut_ptr(), rows.len(), 0);
        let handle = self.handle();
        // SAFETY: as in `fill_rows`.
        outcome_of(unsafe {
            raw::ctfd_function_arguments(handle, symbol, from, at, len, &mut count)
        })?;
        Ok(count)
    }

    /// Whether the dictionary is a child. In a child, type numbers below 32769 are the parent's.
    pub fn is_child(&self) -> bool {
        certain(self.answer_of(raw::ctfd_child)) != 0
    }

    /// The number of types of the imported parent; `None` if none is imported.
    pub fn parent_count(&self) -> Option<usize> {
        self.answer_of(raw::ctfd_parent_count).ok().map(|count| count as usize)
    }

    /// The data model.
    pub fn model(&self) -> Model {
        match certain(self.answer_of(raw::ctfd_model)) {
            0 => Model::Lp64,
            _ => Model::Ilp32,
        }
    }

    /// The name of the parent, from the header; empty if there is none.
    pub fn parent_name(&self) -> Name {
        certain(self.text_of(raw::ctfd_parent_name))
    }

    /// The name of the parent's label, from the header; empty if there is none.
    pub fn parent_label(&self) -> Name {
        certain(self.text_of(raw::ctfd_parent_label))
    }

    /// The own types, in the order of their numbers.
    pub fn types(&self) -> Types<'_> {
        let first = if self.is_child() { u32::from(FIRST_OF_CHILD) } else { 1 };
        Types { of: self, next: first, end: first + self.count() as u32 }
    }

    /// The type with a number.
    pub fn get(&self, number: u16) -> Result<Type<'_>, Refusal> {
        Type::get(self, number)
    }

    /// The type with a name, such as `struct point *`. Of several types, the one with the least
    /// number, own types first.
    pub fn find(&self, name: impl AsRef<[u8]>) -> Result<Type<'_>, Refusal> {
        Ok(Type::of_answer(self, self.answer_for_name(raw::ctfd_find, name.as_ref())?))
    }

    /// The number of the first symbol with a name.
    pub fn symbol(&self, name: impl AsRef<[u8]>) -> Result<u32, Refusal> {
        self.answer_for_name(raw::ctfd_symbol, name.as_ref())
    }

    /// The name of a symbol, by its number.
    pub fn symbol_name(&self, symbol: u32) -> Result<Name, Refusal> {
        // SAFETY: as in `text_of`.
        text(|at, len, told| unsafe { raw::ctfd_symbol_name(self.handle(), symbol, at, len, told) })
    }

    /// The type of an object of the program, by the number of its symbol. `Ok(None)` is no type.
    pub fn object(&self, symbol: u32) -> Result<Option<Type<'_>>, Refusal> {
        Ok(Type::some(self, self.of_symbol(raw::ctfd_object, symbol)?))
    }

    /// The signature of a function of the program, by the number of its symbol.
    pub fn function(&self, symbol: u32) -> Result<Function<'_>, Refusal> {
        let raw: raw::Function = self.of_symbol(raw::ctfd_function, symbol)?;
        let mut rows = vec![0; raw.arguments as usize];
        self.function_argument_rows(symbol, 0, &mut rows)?;
        let arguments = rows.into_iter().map(|number| Type::some(self, number)).collect();
        Ok(Function { returns: Type::some(self, raw.ret), arguments, varargs: raw.varargs != 0 })
    }

    /// The labels, in order.
    pub fn labels(&self) -> Labels<'_> {
        let end = certain(self.answer_of(raw::ctfd_label_count)) as usize;
        Labels { of: self, next: 0, end }
    }

    /// The number of the last type that the first label with a name covers.
    pub fn label(&self, name: impl AsRef<[u8]>) -> Result<u32, Refusal> {
        self.answer_for_name(raw::ctfd_label_last, name.as_ref())
    }

    /// The bytes of the CTF section.
    pub fn bytes(&self) -> Vec<u8> {
        let mut made = Vec::new();
        loop {
            let from = made.len();
            made.resize(from + from.max(4096), 0);
            let (room, mut len) = (&mut made[from..], 0);
            // SAFETY: as in `fill_rows`.
            certain(outcome_of(unsafe {
                raw::ctfd_bytes(self.handle(), from as u64, room.as_mut_ptr(), room.len(), &mut len)
            }));
            if len as usize <= made.len() {
                made.truncate(len as usize);
                return made;
            }
        }
    }
}

impl Drop for Dictionary<'_> {
    fn drop(&mut self) {
        // SAFETY: nothing borrows it any more.
        unsafe { raw::ctfd_close(self.handle()) }
    }
}

impl fmt::Debug for Dictionary<'_> {
    fn fmt(&self, to: &mut fmt::Formatter<'_>) -> fmt::Result {
        to.debug_struct("Dictionary")
            .field("types", &self.count())
            .field("child", &self.is_child())
            .finish_non_exhaustive()
    }
}

/// The result of a call that an open dictionary never refuses.
fn certain<T>(asked: Result<T, Refusal>) -> T {
    asked.unwrap_or_else(|refused| unreachable!("an open dictionary answers: {refused}"))
}

/// The signature of a function of the program.
#[derive(Clone, Debug)]
pub struct Function<'d> {
    /// The return type; `None` for void.
    pub returns: Option<Type<'d>>,
    /// The types of its arguments.
    pub arguments: Vec<Option<Type<'d>>>,
    /// Whether more arguments may follow.
    pub varargs: bool,
}

/// An iterator over the own types of a dictionary, from [`Dictionary::types`].
#[derive(Clone, Debug)]
pub struct Types<'d> {
    of: &'d Dictionary<'d>,
    next: u32,
    end: u32,
}

impl<'d> Iterator for Types<'d> {
    type Item = Type<'d>;

    fn next(&mut self) -> Option<Type<'d>> {
        if self.next == self.end {
            return None;
        }
        self.next += 1;
        Some(Type::of_answer(self.of, (self.next - 1) as u16))
    }

    fn size_hint(&self) -> (usize, Option<usize>) {
        let left = (self.end - self.next) as usize;
        (left, Some(left))
    }
}

impl DoubleEndedIterator for Types<'_> {
    fn next_back(&mut self) -> Option<Self::Item> {
        if self.next == self.end {
            return None;
        }
        self.end -= 1;
        Some(Type::of_answer(self.of, self.end as u16))
    }
}

impl ExactSizeIterator for Types<'_> {}

impl FusedIterator for Types<'_> {}

/// A label: a mark by the tool that wrote the dictionary. The types up to `last` existed then.
#[derive(Clone, Debug, PartialEq, Eq)]
pub struct Label {
    /// Its name.
    pub name: Name,
    /// The number of the last type, as the tool wrote it: there may be no such type.
    pub last: u32,
}

/// An iterator over the labels of a dictionary, from [`Dictionary::labels`].
#[derive(Clone, Debug)]
pub struct Labels<'d> {
    of: &'d Dictionary<'d>,
    next: usize,
    end: usize,
}

impl Labels<'_> {
    fn at(&self, index: usize) -> Result<Label, Refusal> {
        let mut raw = raw::Label::default();
        let name = text(|at, len, told| {
            // SAFETY: as in `text_of`.
            let status = unsafe { raw::ctfd_label(self.of.handle(), index, at, len, &mut raw) };
            *told = raw.name_len;
            status
        })?;
        Ok(Label { name, last: raw.last })
    }
}

impl Iterator for Labels<'_> {
    type Item = Label;

    fn next(&mut self) -> Option<Label> {
        if self.next == self.end {
            return None;
        }
        self.next += 1;
        self.at(self.next - 1).ok()
    }

    fn size_hint(&self) -> (usize, Option<usize>) {
        (self.end - self.next, Some(self.end - self.next))
    }
}

impl DoubleEndedIterator for Labels<'_> {
    fn next_back(&mut self) -> Option<Label> {
        if self.next == self.end {
            return None;
        }
        self.end -= 1;
        self.at(self.end).ok()
    }
}

impl ExactSizeIterator for Labels<'_> {}

impl FusedIterator for Labels<'_> {}
