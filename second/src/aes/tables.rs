//! The lookup tables of AES, made at compile time from the field GF(2^8).

/// SubBytes of one byte.
pub static S_BOX: [u8; 256] = s_box();

/// InvSubBytes of one byte.
pub static INV_S_BOX: [u8; 256] = inv_s_box();

/// `T[row][byte]` is what a byte in that row adds to its column by SubBytes
/// and MixColumns.
pub static T: [[u32; 256]; 4] = column_tables(&S_BOX, [2, 1, 1, 3]);

/// The same by InvSubBytes and InvMixColumns.
pub static INV_T: [[u32; 256]; 4] = column_tables(&INV_S_BOX, [0x0e, 0x09, 0x0d, 0x0b]);

/// Multiplies by x modulo x^8 + x^4 + x^3 + x + 1.
pub const fn double(a: u8) -> u8 {
    let reduction = if a & 0x80 == 0 { 0 } else { 0x1b };
    a << 1 ^ reduction
}

const fn multiply(mut a: u8, mut b: u8) -> u8 {
    let mut product = 0;
    while b != 0 {
        if b & 1 == 1 {
            product ^= a;
        }
        a = double(a);
        b >>= 1;
    }
    product
}

/// The inverse, a^254 = a^2 a^4 a^8 ... a^128, which takes 0 to 0.
const fn inverse(a: u8) -> u8 {
    let mut power = a;
    let mut product = 1;
    let mut i = 1;
    while i < 8 {
        power = multiply(power, power);
        product = multiply(product, power);
        i += 1;
    }
    product
}

/// The affine map of SubBytes.
const fn affine(a: u8) -> u8 {
    a ^ a.rotate_left(1) ^ a.rotate_left(2) ^ a.rotate_left(3) ^ a.rotate_left(4) ^ 0x63
}

const fn s_box() -> [u8; 256] {
    let mut table = [0; 256];
    let mut i = 0;
    while i < 256 {
        table[i] = affine(inverse(i as u8));
        i += 1;
    }
    table
}

const fn inv_s_box() -> [u8; 256] {
    let mut table = [0; 256];
    let mut i = 0;
    while i < 256 {
        table[S_BOX[i] as usize] = i as u8;
        i += 1;
    }
    table
}

/// The tables of a substitution and of the matrix with these factors in its
/// first column. Each further column is the one before, moved down by a row.
const fn column_tables(s_box: &[u8; 256], factors: [u8; 4]) -> [[u32; 256]; 4] {
    let [a, b, c, d] = factors;
    let mut tables = [[0; 256]; 4];
    let mut i = 0;
    while i < 256 {
        let s = s_box[i];
        let products = [
            multiply(s, a),
            multiply(s, b),
            multiply(s, c),
            multiply(s, d),
        ];
        let column = u32::from_be_bytes(products);
        let mut row = 0;
        while row < 4 {
            tables[row][i] = column.rotate_right(8 * row as u32);
            row += 1;
        }
        i += 1;
    }
    tables
}

#[cfg(test)]
mod tests {
    use super::*;

    #[test]
    fn inverses() {
        assert_eq!(inverse(0), 0);
        for a in 1..=255 {
            assert_eq!(multiply(a, inverse(a)), 1);
        }
    }

    /// FIPS 197, section 5.1.1 and the corners of figure 7.
    #[test]
    fn s_box_examples() {
        let inputs = [0x53, 0x00, 0x0f, 0xf0, 0xff];
        let outputs = [0xed, 0x63, 0x76, 0x8c, 0x16];
        assert_eq!(inputs.map(|i: usize| S_BOX[i]), outputs);
    }

    /// FIPS 197, the corners of figure 14 of the edition of 2001.
    #[test]
    fn inv_s_box_examples() {
        let inputs = [0x00, 0x0f, 0xf0, 0xff];
        let outputs = [0x52, 0xfb, 0x17, 0x7d];
        assert_eq!(inputs.map(|i: usize| INV_S_BOX[i]), outputs);
    }

    /// MixColumns of what InvMixColumns makes of one byte is this byte.
    #[test]
    fn matrices_undo_each_other() {
        for row in 0..4 {
            for byte in 0..=255 {
                let column = INV_T[row][usize::from(S_BOX[usize::from(byte)])].to_be_bytes();
                let mixed = (0..4).map(|i| T[i][usize::from(INV_S_BOX[usize::from(column[i])])]);
                let mut single = [0; 4];
                single[row] = byte;
                assert_eq!(mixed.fold(0, |a, b| a ^ b), u32::from_be_bytes(single));
            }
        }
    }
}
