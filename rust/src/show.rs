//! Bytes in hex, for reports.

/// A page as halfwords, a comma after each bundle; an odd last byte stands
/// alone.
pub fn page(page: &[u8]) -> String {
    let bundle = |bytes: &[u8]| {
        let halves: Vec<String> = bytes
            .chunks(2)
            .map(|half| match half {
                [low, high] => format!("{high:02X}{low:02X}"),
                _ => format!("{:02X}", half[0]),
            })
            .collect();
        halves.join(" ")
    };
    page.chunks(4).map(bundle).collect::<Vec<_>>().join(", ")
}

/// Bytes in their order.
pub fn bytes(bytes: &[u8]) -> String {
    bytes.iter().map(|byte| format!("{byte:02X}")).collect()
}
