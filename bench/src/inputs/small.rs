//! Pictures of 16 x 12: the fixed cost of a reading, the standard palette among it.
use super::Input;
use crate::random::{shift, Random};

pub fn all(seed: u32) -> Vec<Input> {
    let register = |number: usize| (number + shift(seed)) % 256;
    let [one, two, nine, seventeen, thirty_three, high] = [1, 2, 9, 17, 33, 240].map(register);
    let sixels = |register: usize, pair: &str| format!("#{register}{}", pair.repeat(8));
    let bands =
        [sixels(seventeen, "@A") + "$" + &sixels(thirty_three, "?@"), sixels(high, "BC") + "$" + &sixels(nine, "_o")];
    let input = |name, text: String| Input::new(name, text.into_bytes());
    let definitions = format!("#{one};2;100;0;0#{two};2;0;100;0");
    vec![
        input("two colours, with repeats", format!("\"1;1;16;12#{one}!16~-#{two}!16~")),
        input("four colours, without", format!("\"1;1;16;12{}", bands.join("-"))),
        input("two definitions, with repeats", format!("{definitions}!8~#{two}!8~-#{one}!8~#{two}!8~")),
        input("sixels by chance, without raster", by_chance(seed)),
    ]
}

fn by_chance(seed: u32) -> String {
    let mut random = Random::new(seed);
    let mut band = || {
        let register = random.below(256);
        format!("#{register}{}", (0..16).map(|_| random.sixel()).collect::<String>())
    };
    [band(), band()].join("-")
}
