//! Scripts one after the other in a file: each a four-byte little-endian
//! length and that many bytes; where they are stored, name, script and listing in
//! turn.

/// Appends one part.
pub fn put(out: &mut Vec<u8>, part: &[u8]) {
    out.extend((part.len() as u32).to_le_bytes());
    out.extend(part);
}

/// The parts of a file, unless its last one is cut.
pub fn parts(mut file: &[u8]) -> Result<Vec<Vec<u8>>, String> {
    let mut parts = Vec::new();
    while !file.is_empty() {
        let (head, rest) = file.split_first_chunk::<4>().ok_or("a length is cut")?;
        let length = u32::from_le_bytes(*head) as usize;
        let (part, rest) = rest.split_at_checked(length).ok_or("a part is cut")?;
        parts.push(part.to_vec());
        file = rest;
    }
    Ok(parts)
}
