//! The kept words: registers and the names of orders.

/// What stands after the name of an order.
#[derive(Clone, Copy, Debug, PartialEq, Eq)]
pub enum Operands {
    None,
    Registers,
    RegisterAndSum,
    Sum,
}

/// An order of the first edition: its first word where the registers are r0,
/// and its operands.
#[derive(Clone, Copy, Debug, PartialEq, Eq)]
pub struct Order {
    pub first: u16,
    pub operands: Operands,
}

/// The page's table for the first edition: name, first word, operands.
const ORDERS: [(&str, u16, Operands); 23] = [
    ("load", 256, Operands::RegisterAndSum),
    ("copy", 512, Operands::Registers),
    ("fetch", 768, Operands::Registers),
    ("store", 1024, Operands::Registers),
    ("add", 1280, Operands::Registers),
    ("subtract", 1536, Operands::Registers),
    ("multiply", 1792, Operands::Registers),
    ("quotient", 2048, Operands::Registers),
    ("remainder", 2304, Operands::Registers),
    ("and", 2560, Operands::Registers),
    ("or", 2816, Operands::Registers),
    ("xor", 3072, Operands::Registers),
    ("compare", 3328, Operands::Registers),
    ("jump", 3584, Operands::Sum),
    ("jumpeq", 3840, Operands::Sum),
    ("jumplt", 3856, Operands::Sum),
    ("jumpgt", 3872, Operands::Sum),
    ("call", 4096, Operands::Sum),
    ("return", 4352, Operands::None),
    ("send", 4624, Operands::None),
    ("receive", 4640, Operands::None),
    ("input", 4656, Operands::None),
    ("output", 4672, Operands::None),
];

/// Names of orders that only later editions have; they are kept all the same.
pub const LATER: [&str; 9] =
    ["finish", "comparesigned", "jumpby", "jumpbyeq", "jumpbylt", "jumpbygt", "shiftleft", "shiftright", "negate"];

const REGISTERS: [&str; 8] = ["r0", "r1", "r2", "r3", "r4", "r5", "r6", "r7"];

/// The order of a name.
pub fn order(name: &str) -> Option<Order> {
    let (_, first, operands) = ORDERS.into_iter().find(|(known, _, _)| *known == name)?;
    Some(Order { first, operands })
}

/// The number of a register.
pub fn register(word: &str) -> Option<u16> {
    (0..).zip(REGISTERS).find(|(_, known)| *known == word).map(|(number, _)| number)
}

/// Whether a word is a name: one that is not kept.
pub fn is_name(word: &str) -> bool {
    order(word).is_none() && register(word).is_none() && !LATER.contains(&word)
}

#[cfg(test)]
mod tests {
    use super::*;

    #[test]
    fn the_kept_words_are_no_names() {
        for word in ["r0", "r7", "load", "copy", "compare", "jumpgt", "return", "output"] {
            assert!(!is_name(word), "{word}");
        }
        assert!(LATER.iter().all(|word| !is_name(word) && order(word).is_none()));
        for word in ["r", "r8", "r00", "r0_", "loads", "loa", "jumpby_", "finish1", "sub", "x"] {
            assert!(is_name(word), "{word}");
        }
    }

    #[test]
    fn the_ops_2_to_13_are_in_their_order() {
        let names = "copy fetch store add subtract multiply quotient remainder and or xor compare";
        for (op, name) in (2..).zip(names.split(' ')) {
            let first = 256 * op;
            assert_eq!(order(name), Some(Order { first, operands: Operands::Registers }));
        }
    }
}
