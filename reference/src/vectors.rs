//! Outside vectors for the arithmetic unit.

/// 100 vectors for each operation, computed by the arithmetic unit of the
/// FM9001. With the move bit 0 its operations, carries and overflows are those
/// of the FM8502, so none has to be mapped; N and Z follow from the result.
const VECTORS: &str = include_str!("../vectors/fm9001-alu.txt");

pub struct Vector {
    pub operation: u8,
    pub a: u32,
    pub b: u32,
    pub carry_in: bool,
    pub result: u32,
    pub carry: bool,
    pub overflow: bool,
}

pub fn vectors() -> Vec<Vector> {
    let lines = VECTORS.lines().filter(|line| !line.starts_with('#'));
    lines.map(vector).collect()
}

/// A line `operation a b c : result C V`.
fn vector(line: &str) -> Vector {
    let fields: Vec<&str> = line.split_whitespace().collect();
    let [operation, a, b, carry_in, ":", result, carry, overflow] = fields[..] else {
        panic!("not a vector: {line}");
    };
    let word = |text| u32::from_str_radix(text, 16).unwrap();
    let bit = |text| match text {
        "0" => false,
        "1" => true,
        _ => panic!("not a bit: {line}"),
    };
    Vector {
        operation: operation.parse().unwrap(),
        a: word(a),
        b: word(b),
        carry_in: bit(carry_in),
        result: word(result),
        carry: bit(carry),
        overflow: bit(overflow),
    }
}
