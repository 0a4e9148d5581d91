//! Example L and the small forms, with what the outline says of them.

/// Numbers of 16 bits, low byte first.
pub fn bytes(numbers: &[u16]) -> Vec<u8> {
    numbers
        .iter()
        .flat_map(|number| number.to_le_bytes())
        .collect()
}

/// Coils 7 and 9; no given formulas; starts 1, 0, 0; switches (0,1,2,2) and (1,2,3,3).
pub fn example_l() -> Vec<u8> {
    bytes(&[2, 7, 9, 0, 3, 1, 0, 0, 2, 0, 1, 2, 2, 1, 2, 3, 3])
}

pub const LISTING_OF_L: &str = "\
vertices 3 switches 2 joins 0 work 8 nodes 1
pivot 0 degree 1
pivot 1 degree 1
pivot 2 degree 0
f 4 and 2 3
vertex 0 formula 1
vertex 1 formula 2
vertex 2 formula 4
";

/// The result form of that listing.
pub fn result_of_l() -> Vec<u8> {
    let variables = [2, 7, 9];
    let records = [1, 1, 2, 3];
    let vertices = [3, 1, 2, 4];
    let order = [3, 0, 1, 1, 1, 2, 0];
    let figures = [3, 0, 0, 8];
    [&variables[..], &records, &vertices, &order, &figures]
        .map(bytes)
        .concat()
}
