//! Bundles: many byte strings in one file. Each entry is its length in decimal,
//! LF, that many bytes, LF; so a reader never looks inside an entry.

pub fn write<E: AsRef<[u8]>>(entries: &[E]) -> Vec<u8> {
    let mut bundle = Vec::new();
    for entry in entries {
        let entry = entry.as_ref();
        bundle.extend_from_slice(format!("{}\n", entry.len()).as_bytes());
        bundle.extend_from_slice(entry);
        bundle.push(b'\n');
    }
    bundle
}

pub fn read(bundle: &[u8]) -> Result<Vec<&[u8]>, String> {
    let mut entries = Vec::new();
    let mut rest = bundle;
    while !rest.is_empty() {
        let (entry, after) = split_entry(rest).ok_or_else(|| {
            format!("entry {} at byte {} is broken", entries.len() + 1, bundle.len() - rest.len())
        })?;
        entries.push(entry);
        rest = after;
    }
    Ok(entries)
}

fn split_entry(rest: &[u8]) -> Option<(&[u8], &[u8])> {
    let line_end = rest.iter().position(|&byte| byte == b'\n')?;
    let length = &rest[..line_end];
    if length.is_empty() || !length.iter().all(u8::is_ascii_digit) {
        return None;
    }
    let length: usize = std::str::from_utf8(length).ok()?.parse().ok()?;
    let rest = &rest[line_end + 1..];
    let entry = rest.get(..length)?;
    let after = rest[length..].strip_prefix(b"\n")?;
    Some((entry, after))
}
