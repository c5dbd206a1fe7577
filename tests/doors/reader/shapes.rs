// shapes.rs - types of Rust whose sizes and members a struct of C tells.
use std::collections::HashMap;
#[repr(C)]
pub struct Point {
    x: i32,
    y: u8,
    next: Option<Box<Point>>,
}
pub enum Shape {
    Circle(f64),
    Square { side: u32, name: String },
    Nothing,
}
#[derive(Clone, Copy)]
#[repr(u8)]
pub enum Color {
    Red = 1,
    Green = 7,
}
pub struct Unit;
pub struct Generic<T> {
    of: T,
    all: Vec<T>,
    text: &'static str,
    wide: u128,
    letter: char,
}
pub union Bits {
    f: f32,
    u: u32,
}
mod inner {
    pub struct Point {
        pub deep: (u8, u64, [u16; 3]),
    }
}
fn main() {
    let p = Point { x: 1, y: 2, next: None };
    let s = [Shape::Circle(1.0), Shape::Square { side: 2, name: "a".into() }, Shape::Nothing];
    let g = Generic {
        of: inner::Point { deep: (1, 2, [3; 3]) },
        all: vec![],
        text: "t",
        wide: 1,
        letter: 'c',
    };
    let c = Color::Green;
    let u = Unit;
    let b = Bits { u: 3 };
    let mut m: HashMap<String, Shape> = HashMap::new();
    for x in s {
        m.insert("k".into(), x);
    }
    let call = |n: u64| n + p.x as u64;
    let unit = ();
    println!(
        "{} {} {} {}",
        m.len(),
        call(3),
        g.text,
        p.y as usize
            + c as usize
            + std::mem::size_of_val(&u)
            + unsafe { b.u } as usize
            + std::mem::size_of_val(&unit)
            + g.letter as usize
            + g.all.len()
            + g.wide as usize
            + g.of.deep.0 as usize
            + p.next.is_some() as usize
    );
}
