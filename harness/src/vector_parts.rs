//! The parts of an instruction as the vectors name them (name, form, condition ..) and as the calls take them.

use crate::json::Json;
use crate::model::rows::{rows, Field, Row};

/// The conditions by their codes.
const CONDITIONS: [&str; 13] = ["", "Z", "NZ", "GT", "LT", "GE", "LE", "NIRQ", "B0", "B1", "NB0", "NB1", "BIO"];

/// The name, form and condition that the vectors give to a row.
fn described(row: &Row) -> (String, String, u64) {
    let (name, rest) = row.text.split_once(' ').unwrap_or((&row.text, ""));
    let name = name.trim_end_matches('n');
    let (operands, condition) = match name {
        "JMP" => rest.split_once(',').unwrap_or((rest, "")),
        _ => (rest, ""),
    };
    let form = match operands {
        "d,s" => "r",
        "d,#v" => "#",
        "d,>v" => ">",
        "d,<v" => "<",
        "d,@s" => "@r",
        "d,&v" => "&",
        "@d,s" => "r@",
        "&v,d" => "r&",
        "@d,#v" => "@#",
        "@d,>v" => "@>",
        "@d,<v" => "@<",
        "@d,@%X+" => "to",
        "@%X+,@s" => "from",
        "t" | "v,o" => "a",
        "@d" => "@",
        _ if is_short(row) => "short",
        _ => "",
    };
    let condition = CONDITIONS.iter().position(|&c| c == condition).unwrap_or(0);
    (name.to_string(), form.to_string(), condition as u64)
}

/// The short immediates of TST to MUL.
fn is_short(row: &Row) -> bool {
    row.bits >> 31 == 0 && row.bits >> 23 & 7 == 0b100
}

/// Parts as the vectors name them, from what reading answers.
pub fn to_vector(parts: &[u32; 6]) -> Vec<(&'static str, Json)> {
    let [row, flag, destination, source, byte, value] = *parts;
    let row = &rows()[row as usize];
    let (name, form, condition) = described(row);
    let unit = row.uses(Field::Unit);
    let (d, s, u) = match form.as_str() {
        "r&" => (source, destination, 0),
        _ if unit => (0, source, destination),
        _ => (destination, source, 0),
    };
    let update = if row.uses(Field::Flag) { 1 - flag } else { flag };
    let number = |n: u32| Json::Number(i128::from(n));
    vec![
        ("name", Json::Text(name)),
        ("form", Json::Text(form)),
        ("upd", number(update)),
        ("d", number(d)),
        ("s", number(s)),
        ("n", number(byte)),
        ("cond", Json::Number(i128::from(condition))),
        ("u", number(u)),
        ("val", number(value)),
    ]
}

/// The list that writing takes, from parts as the vectors name them. A part that no place of the list stands for, and is not 0, makes a part
/// not 0 that the row does not use.
pub fn from_vector(json: &Json) -> Result<[u32; 6], String> {
    let part = |name: &str| json.field(name).word();
    let (name, form) = (json.field("name").text()?, json.field("form").text()?);
    let condition = json.field("cond").number()?;
    let found = rows().iter().position(|row| {
        let (n, f, c) = described(row);
        n == name && f == form && (c == condition || n != "JMP")
    });
    let Some(index) = found else {
        return Ok([rows().len() as u32, 0, 0, 0, 0, 0]);
    };
    let row = &rows()[index];
    let (mut destination, mut source) = (part("d")?, part("s")?);
    let mut left_over = if name == "JMP" { 0 } else { part("cond")? };
    if form == "r&" {
        std::mem::swap(&mut destination, &mut source);
    }
    if row.uses(Field::Unit) {
        left_over |= destination;
        destination = part("u")?;
    } else {
        left_over |= part("u")?;
    }
    let flag = match part("upd")? {
        update @ (0 | 1) if row.uses(Field::Flag) => 1 - update,
        update => update,
    };
    let mut parts = [index as u32, flag, destination, source, part("n")?, part("val")?];
    if left_over != 0 {
        parts[if row.uses(Field::Byte) { 5 } else { 4 }] = 1;
    }
    Ok(parts)
}
