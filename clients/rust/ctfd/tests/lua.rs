//! Compares what the crate returns for lua's types with a dump of them.

use ctfd::{
    Dictionary, EnumeratorRow, Fault, Kind, MemberRow, Model, Options, Service, SymbolRow, Type,
    TypeRow, VisitRow,
};
use std::fs;

const EXAMPLES: &str = concat!(env!("CARGO_MANIFEST_DIR"), "/../../../examples");

fn read(name: &str) -> Vec<u8> {
    fs::read(format!("{EXAMPLES}/{name}")).expect(name)
}

fn lua() -> Dictionary<'static> {
    let options = Options {
        symbols: Some(&read("lua.sym")),
        strings: Some(&read("lua.str")),
        model: Model::Lp64,
    };
    Dictionary::open_with(&read("lua.ctf"), options).expect("lua's dictionary is sound")
}

fn text_of<T: ToString>(answer: Result<T, ctfd::Refusal>) -> String {
    answer.map_or_else(|refused| refused.fault.to_string(), |value| value.to_string())
}

/// The lines of a dump: of each record only its name and what comes before it.
fn lines_of_types(types: &Dictionary) -> Vec<String> {
    let mut lines = Vec::new();
    for t in types.types() {
        lines.push(format!(
            "type {} {} {:?} : {:?} bytes={} align={}",
            t.number(),
            format!("{:?}", t.kind()).to_lowercase(),
            t.declared_name().unwrap(),
            t.name().unwrap(),
            text_of(t.size()),
            text_of(t.align()),
        ));
        for member in t.members().into_iter().flatten() {
            let kind = member.of_type.map_or(0, |t| t.number());
            lines.push(format!("  member {:?} offset={} type={kind}", member.name, member.offset));
        }
        for one in t.enumerators().into_iter().flatten() {
            lines.push(format!("  value {:?} {}", one.name, one.value));
        }
    }
    lines
}

/// The same lines, from the file that `ctfd dump` wrote.
fn lines_of_dump() -> Vec<String> {
    let dump = String::from_utf8(read("lua.dump")).unwrap();
    let lines = dump.lines().filter(|line| line.starts_with("type ") || line.starts_with(' '));
    lines
        .map(|line| match line.split_once(" : ") {
            Some((front, back)) => {
                let name_ends = front.rfind('"').unwrap() + 1;
                format!("{} : {back}", &front[..name_ends])
            }
            None => line.to_string(),
        })
        .collect()
}

#[test]
fn types_are_those_of_the_dump() {
    let (seen, wanted) = (lines_of_types(&lua()), lines_of_dump());
    assert!(wanted.len() > 1200);
    for (one, other) in seen.iter().zip(&wanted) {
        assert_eq!(one, other);
    }
    assert_eq!(seen.len(), wanted.len());
}

#[test]
fn declarations_without_a_name_are_names() {
    let types = lua();
    for t in types.types() {
        // For a qualified array of pointers: C qualifies the elements, and the protocol's name has
        // the qualifier at the front.
        let mut name = t.to_string();
        if name.contains(" *const [") {
            name = name.replacen("const const ", "const ", 1);
        }
        assert_eq!(t.declare("").to_string(), name);
    }
}

#[test]
fn declarations_stand_round_their_names() {
    let types = lua();
    let state = types.find("struct lua_State").unwrap();
    let shown: Vec<String> = state.members().unwrap().map(|one| one.to_string()).collect();
    assert_eq!(shown[0], "struct GCObject *next");
    assert!(shown.contains(&"volatile lua_Hook hook".to_string()));
    let call = types.find("lua_CFunction").unwrap().reference().unwrap().unwrap();
    assert_eq!(call.declare("f").to_string(), "int (*f)()");
    let array = types.types().find(|t| t.kind() == Kind::Array).unwrap();
    let spelled = array.to_string();
    let (front, back) = spelled.split_once('[').unwrap();
    assert_eq!(array.declare("a").to_string(), format!("{front}a[{back}"));
}

#[test]
fn names_find_their_types() {
    let types = lua();
    let state = types.find("struct lua_State").unwrap();
    assert_eq!(state, types.get(state.number()).unwrap());
    assert_eq!(state.pointer().unwrap().to_string(), "struct lua_State *");
    assert_eq!(state.field("hook").unwrap().0, 160 * 8);
    assert_eq!(
        state.path(&[b"base_ci", b"next"]).unwrap().1.unwrap().to_string(),
        "struct CallInfo *"
    );
    assert_eq!(state.path(&[]).unwrap(), (0, Some(state)));
    assert_eq!(types.find("struct nothing").unwrap_err().fault, Fault::NotFound);
    assert_eq!(types.get(527).unwrap_err().fault, Fault::NoType);
    assert_eq!(state.enumerators().unwrap_err().fault, Fault::WrongKind);
    assert_eq!(state.field("none").unwrap_err().fault, Fault::NoMember);
}

/// The name at an offset of the section.
fn name_at(section: &[u8], list: u32, at: u64) -> &[u8] {
    if list == 2 {
        return &[];
    }
    assert_eq!(list, 0);
    let rest = &section[at as usize..];
    &rest[..rest.iter().position(|&byte| byte == 0).unwrap()]
}

#[test]
fn rows_say_where_names_stand() {
    let section = read("lua.ctf");
    let types = lua();
    for t in types.types() {
        for (i, member) in t.members().into_iter().flatten().enumerate() {
            let mut rows = [MemberRow::default()];
            t.member_rows(i, &mut rows).unwrap();
            let name = name_at(&section, rows[0].name_list, rows[0].name_at);
            assert_eq!((rows[0].offset, name), (member.offset, &*member.name));
        }
        for (i, one) in t.enumerators().into_iter().flatten().enumerate() {
            let mut rows = [EnumeratorRow::default(); 2];
            assert!(t.enumerator_rows(i, &mut rows).unwrap() > i as u64);
            let name = name_at(&section, rows[0].name_list, rows[0].name_at);
            assert_eq!((rows[0].value, name), (one.value, &*one.name));
            assert_eq!(t.enumerator_value(name).unwrap(), one.value);
        }
    }
}

#[test]
fn rows_of_types_say_what_each_call_says() {
    let section = read("lua.ctf");
    let types = lua();
    let mut rows = vec![TypeRow::default(); types.count() + 1];
    assert_eq!(types.type_rows(0, &mut rows), types.count() as u64);
    assert_eq!(rows.pop(), Some(TypeRow::default()));
    let number = |t: Option<Type<'_>>| t.map_or(0, Type::number);
    for (t, row) in types.types().zip(&rows) {
        let name = name_at(&section, row.name_list, row.name_at);
        assert_eq!((row.tnum, name), (t.number(), &*t.declared_name().unwrap()));
        assert_eq!((row.kind, row.root), (t.kind() as u32, u32::from(t.is_root().unwrap())));
        assert_eq!(row.length, t.length().unwrap() as u64);
        assert_eq!((row.size_status == 0).then_some(row.size), t.size().ok());
        assert_eq!((row.align_status == 0).then_some(row.align), t.align().ok());
        let resolved = (row.resolved_status == 0).then_some(row.resolved);
        assert_eq!(resolved, t.resolve().ok().map(number));
        let reference = (row.reference_status == 0).then_some(row.reference);
        assert_eq!(reference, t.reference().ok().map(number));
    }
}

#[test]
fn rows_of_arguments_say_what_each_call_says() {
    let types = lua();
    for t in types.types() {
        let Ok(wanted) = t.arguments() else {
            assert_eq!(t.argument_rows(0, &mut []).unwrap_err().fault, Fault::WrongKind);
            continue;
        };
        let wanted: Vec<u16> = wanted.map(|to| to.map_or(0, Type::number)).collect();
        let mut rows = vec![u16::MAX; wanted.len() + 1];
        assert_eq!(t.argument_rows(0, &mut rows).unwrap(), wanted.len() as u64);
        assert_eq!((rows.pop(), rows), (Some(u16::MAX), wanted));
    }
}

#[test]
fn rows_of_symbols_say_what_each_call_says() {
    let (symbols, strings) = (read("lua.sym"), read("lua.str"));
    let types = lua();
    let mut rows = vec![SymbolRow::default(); symbols.len() / 24];
    assert_eq!(types.symbol_rows(0, &mut rows), rows.len() as u64);
    let number = |t: Option<Type<'_>>| t.map_or(0, Type::number);
    for (row, symbol) in rows.iter().zip(0..) {
        let name: &[u8] = match row.name_list {
            1 => strings[row.name_at as usize..].split(|&byte| byte == 0).next().unwrap(),
            _ => b"",
        };
        assert_eq!((row.number, name), (symbol, &*types.symbol_name(symbol).unwrap()));
        let told = (row.type_status == 0).then_some(row.tnum);
        if row.symbol_class != 2 {
            assert_eq!(told, types.object(symbol).ok().map(number));
            continue;
        }
        let function = types.function(symbol).ok();
        assert_eq!(told, function.as_ref().map(|it| number(it.returns)));
        let wanted: Vec<u16> =
            function.iter().flat_map(|it| &it.arguments).copied().map(number).collect();
        let mut taken = vec![0; wanted.len()];
        let count = types.function_argument_rows(symbol, 0, &mut taken).ok();
        assert_eq!((count, taken), (function.map(|it| it.arguments.len() as u64), wanted));
    }
}

/// The number of the type that a type resolves to; 0 if that is none.
fn stands_for(t: Option<Type<'_>>) -> u16 {
    t.and_then(|t| t.resolve().ok().flatten()).map_or(0, Type::number)
}

/// The rows of what a type contains, from calls for each member, without the offsets of names.
fn lying_in(t: Type<'_>, offset: u64, depth: u32, rows: &mut Vec<VisitRow>) {
    let Ok(Some(holder)) = t.resolve() else {
        return;
    };
    for member in holder.members().into_iter().flatten() {
        let row = VisitRow {
            offset: offset + member.offset,
            depth: depth + 1,
            tnum: member.of_type.map_or(0, Type::number),
            holder: holder.number(),
            stands_for: stands_for(member.of_type),
            ..VisitRow::default()
        };
        rows.push(row);
        if let Some(kind) = member.of_type {
            lying_in(kind, row.offset, row.depth, rows);
        }
    }
}

#[test]
fn a_visit_fills_rows_with_all_that_lies_in_a_type() {
    let types = lua();
    for t in types.types() {
        let outermost = VisitRow {
            name_list: 2,
            tnum: t.number(),
            holder: t.number(),
            stands_for: stands_for(Some(t)),
            ..VisitRow::default()
        };
        let mut wanted = vec![outermost];
        lying_in(t, 0, 0, &mut wanted);
        let mut rows = vec![VisitRow::default(); wanted.len()];
        assert_eq!(t.visit_rows(&mut rows), Ok(wanted.len() as u64));
        let visited = t.visit().unwrap().map(|in_it| VisitRow {
            offset: in_it.offset.unwrap_or(u64::MAX),
            depth: in_it.depth,
            tnum: in_it.of_type.map_or(0, Type::number),
            holder: in_it.holder.number(),
            ..VisitRow::default()
        });
        let listed = wanted.iter().map(|one| VisitRow { name_list: 0, stands_for: 0, ..*one });
        assert!(visited.eq(listed));
        let shown = rows.iter().zip(&wanted).map(|(row, one)| VisitRow {
            name_at: one.name_at,
            name_list: one.name_list,
            ..*row
        });
        assert!(shown.eq(wanted.iter().copied()));
        let fewer = wanted.len() - 1;
        assert_eq!(t.visit_rows(&mut rows[..fewer]), Ok(wanted.len() as u64));
    }
}

#[test]
fn enumerators_are_found_by_value_and_name() {
    let types = lua();
    let modes = types.find("enum OpMode").unwrap();
    assert_eq!(modes.enumerator_name(1).unwrap(), "iABx");
    assert_eq!(modes.enumerator_value("iABx").unwrap(), 1);
    let refused = [
        (modes.enumerator_name(-1).err(), Fault::NoMember),
        (modes.enumerator_value("").err(), Fault::NoMember),
    ];
    let state = types.find("struct lua_State").unwrap();
    let wrong = [
        (state.enumerator_name(1).err(), Fault::WrongKind),
        (state.enumerator_value("x").err(), Fault::WrongKind),
    ];
    for (refusal, fault) in refused.into_iter().chain(wrong) {
        assert_eq!(refusal.unwrap().fault, fault);
    }
}

#[test]
fn a_lent_name_takes_no_memory_of_its_own() {
    let types = lua();
    let state = types.find("struct lua_State").unwrap();
    let mut room = Vec::new();
    for (index, member) in state.members().unwrap().enumerate() {
        let lent = state.member_in(index, &mut room).unwrap();
        assert_eq!((lent.name, lent.offset), (&*member.name, member.offset));
    }
    let refused = state.member_in(24, &mut room).unwrap_err();
    assert_eq!(refused.fault, Fault::NoMember);
}

#[test]
fn lists_go_from_both_ends() {
    let types = lua();
    let state = types.find("struct lua_State").unwrap();
    let mut back: Vec<_> = state.members().unwrap().rev().collect();
    back.reverse();
    assert!(back.into_iter().eq(state.members().unwrap()));
    assert_eq!(state.members().unwrap().len(), 24);
    assert_eq!(types.types().next_back().unwrap().number(), 526);
    assert_eq!(types.types().len(), 526);
}

#[test]
fn symbols_and_labels_are_told() {
    let types = lua();
    let symbol = types.symbol("lua_close").unwrap();
    assert_eq!(types.symbol_name(symbol).unwrap(), "lua_close");
    let close = types.function(symbol).unwrap();
    assert_eq!(close.arguments[0].unwrap().to_string(), "lua_State *");
    assert!(!close.varargs);
    assert_eq!(types.object(symbol).unwrap_err().fault, Fault::NotData);
    let labels: Vec<_> = types.labels().collect();
    assert_eq!((labels.len(), labels[0].last), (1, 526));
    assert_eq!(labels[0].name, "lua");
    assert_eq!(types.label("lua"), Ok(526));
    assert_eq!((types.is_child(), types.parent_count()), (false, None));
    assert_eq!(types.bytes(), read("lua.ctf"));
}

#[test]
fn values_are_shown() {
    let types = lua();
    let int = types.find("int").unwrap();
    assert_eq!(int.show(&[0xfe, 0xff, 0xff, 0xff], 0).unwrap(), "-2");
    assert_eq!(int.show(&[1], 0).unwrap_err().fault, Fault::ShortMemory);
}

#[test]
fn pointers_may_have_four_bytes() {
    let options = Options { model: Model::Ilp32, ..Options::default() };
    let types = Dictionary::open_with(&read("lua.ctf"), options).unwrap();
    assert_eq!(types.find("struct lua_State *").unwrap().size(), Ok(4));
    assert_eq!(types.model(), Model::Ilp32);
}

#[test]
fn each_fault_has_its_number() {
    for code in 0..63 {
        assert_eq!(Fault::from_code(code).unwrap().code(), code);
    }
    assert_eq!(Fault::from_code(63), None);
    assert_eq!(Fault::FixedParent.code(), 62);
}

#[test]
fn lines_are_answered() {
    let mut service = Service::new().unwrap();
    let asked = String::from_utf8(read("struct.jsonl")).unwrap();
    let wanted = String::from_utf8(read("struct.replies")).unwrap();
    for (line, reply) in asked.lines().zip(wanted.lines()) {
        assert_eq!(service.answer(line).unwrap(), reply);
    }
}
