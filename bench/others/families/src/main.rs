//! Prints the families of the benchmark (bench/src/families.rs) for a program in another language: a line
//! `family` and its name, then a line of hexadecimal digits for each question.

#[path = "../../../src/families.rs"]
mod families;

/// Of the worst cases, which go by their split into free and own variables, these are enough.
const SPLITS: [&str; 3] = ["12 free", "6 free", "0 free"];

fn main() {
    for family in families::all() {
        let split = family.name.strip_prefix("worst case, ");
        if split.is_some_and(|split| !SPLITS.iter().any(|s| split.starts_with(s))) {
            continue;
        }
        println!("family {}", family.name);
        for question in family.inputs {
            let digits: Vec<String> = question.iter().map(|byte| format!("{byte:02X}")).collect();
            println!("{}", digits.concat());
        }
    }
}
