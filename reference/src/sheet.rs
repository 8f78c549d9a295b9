//! Rows and their bytes.

#[derive(Clone, Copy, Debug, PartialEq, Eq, PartialOrd, Ord, Hash)]
pub struct Offer {
    pub arrival: u32,
    pub price: u32,
}

pub const ROWS_MOST: usize = 32;

/// The rows are at most 32 best offers, by rising arrival.
pub fn write(rows: &[Offer]) -> Vec<u8> {
    let mut bytes = vec![rows.len() as u8];
    for row in rows {
        bytes.extend(row_bytes(row));
    }
    bytes
}

fn row_bytes(row: &Offer) -> Vec<u8> {
    let arrival = row.arrival.to_le_bytes();
    let price = row.price.to_le_bytes();
    let all = [arrival[0], arrival[1], arrival[2], price[0], price[1], price[2]];
    let mut map = 0;
    let mut shown = Vec::new();
    for (bit, &byte) in all.iter().enumerate() {
        if byte != 0 {
            map |= 1 << bit;
            shown.push(byte);
        }
    }
    shown.insert(0, map);
    shown
}

/// Bytes as a record shows them.
pub fn hexadecimal(bytes: &[u8]) -> String {
    let words: Vec<String> = bytes.iter().map(|byte| format!("{byte:02x}")).collect();
    words.join(" ")
}

#[cfg(test)]
mod tests {
    use super::*;

    fn shown(rows: &[(u32, u32)]) -> String {
        let rows: Vec<Offer> = rows.iter().map(|&(arrival, price)| Offer { arrival, price }).collect();
        hexadecimal(&write(&rows))
    }

    #[test]
    fn sheets_by_hand() {
        assert_eq!(shown(&[]), "00");
        assert_eq!(shown(&[(0, 0)]), "01 00");
        assert_eq!(shown(&[(600, 0)]), "01 03 58 02");
        assert_eq!(shown(&[(1500, 350), (1800, 300)]), "02 1b dc 05 5e 01 1b 08 07 2c 01");
        assert_eq!(shown(&[(0x010000, 0x010001)]), "01 2c 01 01 01");
        assert_eq!(shown(&[(172_800, 9_999_999)]), "01 3e a3 02 7f 96 98");
    }

    #[test]
    fn the_longest_sheet_has_225_bytes() {
        let rows: Vec<(u32, u32)> = (0..32).map(|at| (0x010101 + at, 0x010140 - at)).collect();
        let rows: Vec<Offer> = rows.iter().map(|&(arrival, price)| Offer { arrival, price }).collect();
        assert_eq!(write(&rows).len(), 225);
    }
}
