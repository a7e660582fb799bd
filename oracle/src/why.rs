//! Turns the text of an error into the numbers of a fault, so far as the text tells them.
//! The texts are the original's, our stand-ins' and those of netlink-packet-utils 0.5.1.

/// `refused CAUSE LAYER NEED NUMBER PLACE`, the place being that of the failing filter option.
pub fn numbers(place: usize, text: &str) -> String {
    let (cause, layer, need, number) = fault(text).unwrap_or((0, 0, 0, 0));
    format!("refused {cause} {layer} {need} {number} {place}")
}

fn fault(text: &str) -> Option<(u8, u8, usize, u8)> {
    let in_option = text.contains("failed to parse TCA_ACT_OPTIONS");
    for (cause, said, in_utils) in [
        (6, "head is cut off", "but an NLA header is"),
        (7, "length field exceeds what remains", "but the NLA is"),
        (8, "length field is below 4", "NLA has invalid length"),
    ] {
        if text.contains(said) || text.contains(in_utils) {
            return Some((cause, list(text), 0, 0));
        }
    }
    if text.contains("text is not UTF-8") || text.contains("invalid string") {
        return Some((9, 3, 0, 0));
    }
    if text.ends_with("Missing TCA_ACT_KIND") {
        return Some((10, 2, 0, 0));
    }
    if text.ends_with("Duplicate TCA_ACT_KIND") {
        return Some((11, 2, 0, 0));
    }
    if let Some(need) = number_after(text, "invalid TcU32SelectorBuffer: length ", " < ") {
        return Some((13, 1, need, 0));
    }
    if let Some(need) = number_after(text, "record of ", " is shorter than ") {
        return in_option.then_some((14, 4, need, 13));
    }
    if let Some(need) = number_after(text, "Invalid u8 array length ", ", expecting ") {
        return in_option.then_some((14, 4, need, 12));
    }
    let need = number_after(text, "integer of ", " wants exactly ")
        .or_else(|| number_after(text, ": invalid", " u").map(|bits| bits / 8))?;
    if in_option {
        Some((14, 4, need, 12))
    } else if text.contains("failed to parse TCA_ACT_I") {
        Some((12, 3, need, 0))
    } else {
        Some((12, 1, need, 0))
    }
}

/// The layer of the list that the walk failed in.
fn list(text: &str) -> u8 {
    if text.contains("invalid TCA_ACT_OPTIONS") {
        4
    } else if text.contains("failed to parse action nla") {
        3
    } else if text.contains("invalid TCA_U32_ACT") {
        2
    } else {
        1
    }
}

/// The number that follows `second` somewhere behind `first`.
fn number_after(text: &str, first: &str, second: &str) -> Option<usize> {
    let (_, behind) = text.split_once(first)?;
    let (_, behind) = behind.split_once(second)?;
    let end = behind.find(|c: char| !c.is_ascii_digit()).unwrap_or(behind.len());
    behind[..end].parse().ok()
}
