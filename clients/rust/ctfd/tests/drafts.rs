//! Tests of drafts, and of parents that are shared.

use ctfd::{Dictionary, Draft, Encoding, Fault, Kind, LabelRow, Model, NewName};

const INT: Encoding = Encoding { encoding: 1, offset: 0, bits: 32 };

/// `int`, and `struct node { int value; struct node *next; }`.
fn nodes() -> Draft<'static> {
    let mut draft = Draft::new(Model::Lp64).unwrap();
    let int = draft.integer("int", INT, 4).unwrap();
    let node = draft.structure("node", 0).unwrap();
    let to = draft.pointer(NewName::hidden(b""), node).unwrap();
    assert_eq!(draft.member(node, "value", int, None), Ok(0));
    assert_eq!(draft.member(node, "next", to, None), Ok(64));
    assert_eq!(draft.find("int").unwrap_err().fault, Fault::NotFound);
    draft.update().unwrap();
    draft
}

#[test]
fn what_is_added_is_told_after_an_update() {
    let draft = nodes();
    let node = draft.find("struct node").unwrap();
    let shown: Vec<String> = node.members().unwrap().map(|one| one.to_string()).collect();
    assert_eq!(shown, ["int value", "struct node *next"]);
    assert_eq!(node.size(), Ok(16));
}

#[test]
fn all_kinds_are_added() {
    let mut draft = nodes();
    draft.float("double", Encoding { encoding: 2, offset: 0, bits: 64 }, 8).unwrap();
    draft.typedef("number", 1).unwrap();
    draft.volatile("", 1).unwrap();
    let constant = draft.constant("", 3).unwrap();
    draft.restrict("", constant).unwrap();
    draft.array("", 1, 1, 7).unwrap();
    draft.function("", 1, &[1, 0]).unwrap();
    let either = draft.union("either", 0).unwrap();
    draft.member(either, "n", 1, Some(0)).unwrap();
    let color = draft.enumeration("color", 4).unwrap();
    draft.enumerator(color, "red", -1).unwrap();
    draft.forward("later", Kind::Struct).unwrap();
    draft.unknown("").unwrap();
    draft.label("one", 2).unwrap();
    draft.update().unwrap();
    let kinds: Vec<Kind> = draft.types().map(|t| t.kind()).skip(3).collect();
    assert_eq!(
        kinds,
        [
            Kind::Float,
            Kind::Typedef,
            Kind::Volatile,
            Kind::Const,
            Kind::Restrict,
            Kind::Array,
            Kind::Function,
            Kind::Union,
            Kind::Enum,
            Kind::Forward,
            Kind::Unknown
        ]
    );
    for t in draft.types() {
        assert_eq!(t.declare("").to_string(), t.to_string());
    }
    let restrict = draft.types().find(|t| t.kind() == Kind::Restrict).unwrap();
    assert_eq!(restrict.declare("p").to_string(), format!("{restrict} p"));
    let forward = draft.types().find(|t| t.kind() == Kind::Forward).unwrap();
    assert_eq!(forward.tag(), Ok(Kind::Struct));
    let function = draft.types().find(|t| t.kind() == Kind::Function).unwrap();
    let arguments: Vec<_> = function.arguments().unwrap().collect();
    assert_eq!((arguments.len(), arguments[1]), (2, None));
    assert_eq!(draft.labels().next().unwrap().last, 2);
    let (bytes, mut rows) = (draft.bytes(), [LabelRow::default(); 2]);
    assert_eq!((draft.label_rows(0, &mut rows), rows[1]), (1, LabelRow::default()));
    assert_eq!((rows[0].last, rows[0].name_list), (2, 0));
    assert!(bytes[rows[0].name_at as usize..].starts_with(b"one\0"));
}

#[test]
fn members_stand_where_it_is_stated() {
    let mut draft = nodes();
    let outer = draft.structure("outer", 40).unwrap();
    let later = draft.forward("later", Kind::Struct).unwrap();
    draft.member_at(outer, "odd", 1, 3, 12).unwrap();
    draft.member_at(outer, "incomplete", later, 96, 12).unwrap();
    let refused = [
        draft.member_at(outer, "behind", 1, 97, 12),
        draft.member_at(outer, "small", 1, 0, 11),
        draft.member_at(outer, "odd", 1, 0, 12),
        draft.member_at(outer, "none", 99, 0, 12),
    ];
    let faults: Vec<Fault> = refused.into_iter().map(|one| one.unwrap_err().fault).collect();
    assert_eq!(faults, [Fault::BadOffset, Fault::BadOffset, Fault::Duplicate, Fault::BadRef]);
    draft.update().unwrap();
    let outer = draft.find("struct outer").unwrap();
    let shown: Vec<_> = outer.members().unwrap().map(|one| one.offset).collect();
    assert_eq!((outer.size(), shown), (Ok(12), vec![3, 96]));
}

#[test]
fn each_refusal_of_a_member_at_a_stated_place() {
    let mut draft = nodes();
    let color = draft.enumeration("color", 4).unwrap();
    let small = draft.structure("small", 0).unwrap();
    let full = draft.structure("full", 0).unwrap();
    draft.member_at(small, "a", 1, 0, 4).unwrap();
    for number in 0..1023 {
        draft.member_at(full, &format!("m{number}"), 1, 0, 4).unwrap();
    }
    let mut deep = 1;
    for _ in 0..513 {
        deep = draft.array("", deep, 1, 1).unwrap();
    }
    let refused = [
        draft.member_at(small, "b\0", 1, 0, 4),
        draft.member_at(9999, "b", 1, 0, 4),
        draft.member_at(2, "b", 1, 0, 4),
        draft.member_at(color, "b", 1, 0, 4),
        draft.member_at(full, "b", 1, 0, 4),
        draft.member_at(small, "a", 1, 0, 4),
        draft.member_at(small, "b", 9999, 0, 4),
        draft.member_at(small, "b", deep, 0, 4),
        draft.member_at(small, "b", 1, 33, 4),
    ];
    let faults: Vec<Fault> = refused.into_iter().map(|one| one.unwrap_err().fault).collect();
    assert_eq!(
        faults,
        [
            Fault::NameHasZero,
            Fault::NoType,
            Fault::Settled,
            Fault::WrongKind,
            Fault::VlenFull,
            Fault::Duplicate,
            Fault::BadRef,
            Fault::DeepMember,
            Fault::BadOffset
        ]
    );
}

#[test]
fn what_is_discarded_is_gone() {
    let mut draft = nodes();
    assert_eq!(draft.structure("gone", 0), Ok(4));
    draft.discard().unwrap();
    draft.update().unwrap();
    assert_eq!((draft.count(), draft.get(4).unwrap_err().fault), (3, Fault::NoType));
    assert_eq!(draft.member(2, "x", 1, None).unwrap_err().fault, Fault::Settled);
    assert_eq!(draft.typedef("t", 99).unwrap_err().fault, Fault::BadRef);
}

#[test]
fn a_parent_lives_as_long_as_its_child() {
    let base = nodes();
    let mut draft = Draft::child(&base, "base", "v1").unwrap();
    draft.pointer("", 2).unwrap();
    draft.update().unwrap();
    let mut child = Dictionary::open(&draft.bytes()).unwrap();
    assert_eq!((child.is_child(), child.parent_count()), (true, None));
    assert_eq!(child.parent_name(), "base");
    assert_eq!(child.parent_label(), "v1");
    let alone = child.types().next().unwrap();
    assert_eq!(alone.number(), 32_769);
    assert_eq!(alone.name().unwrap_err().fault, Fault::NoParent);
    child.import(&base).unwrap();
    drop(base);
    drop(draft);
    assert_eq!(child.types().next().unwrap().to_string(), "struct node *");
    assert_eq!(child.parent_count(), Some(3));
}

#[test]
fn a_refused_import_changes_nothing() {
    let (base, none) = (nodes(), Draft::new(Model::Lp64).unwrap());
    let mut draft = Draft::child(&base, "base", "").unwrap();
    draft.pointer("", 2).unwrap();
    draft.update().unwrap();
    let mut child = Dictionary::open(&draft.bytes()).unwrap();
    child.import(&base).unwrap();
    let refused = child.import(&none).unwrap_err();
    assert_eq!((refused.fault, refused.place), (Fault::ParentShort, 2));
    let told = refused.to_string();
    assert!(told.starts_with("ParentShort at 2: the parent has fewer types than are named; "));
    assert!(told.ends_with(refused.fault.advice()));
    assert_eq!(child.parent_count(), Some(3));
    let mut alone = nodes().into_dictionary().unwrap();
    assert_eq!(alone.import(&base).unwrap_err().fault, Fault::NotChild);
}

#[test]
fn a_bit_field_keeps_its_width() {
    let mut draft = nodes();
    let narrow = Encoding { bits: 3, ..INT };
    let three = draft.integer(NewName::hidden(b"int"), narrow, 4).unwrap();
    let copy = draft.integer(NewName::hidden(b"int"), INT, 4).unwrap();
    let other = draft.integer(NewName::hidden(b"other"), INT, 4).unwrap();
    let alias = draft.typedef("alias", three).unwrap();
    let flags = draft.structure("flags", 0).unwrap();
    for (name, of) in [("a", three), ("b", alias), ("c", copy), ("d", other), ("e", 1)] {
        draft.member(flags, name, of, None).unwrap();
    }
    draft.update().unwrap();
    let flags = draft.find("struct flags").unwrap();
    let shown: Vec<String> = flags.members().unwrap().map(|one| one.to_string()).collect();
    let wanted = ["int a:3", "alias b:3", "int c:32", "other d", "int e"];
    assert_eq!(shown, wanted);
}

#[test]
fn one_list_may_be_given_as_several() {
    let parent = nodes();
    assert!(Draft::child(&parent, "same", "same").is_ok());
    let bytes = parent.bytes();
    let options = ctfd::Options {
        symbols: Some(&bytes[..48]),
        strings: Some(&bytes[24..]),
        model: Model::Lp64,
    };
    assert!(Dictionary::open_with(&bytes, options).is_ok());
}
