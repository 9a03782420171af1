//! What people's programs put into a text that is otherwise right: an invisible mark, Windows line
//! ends, tabs, spaces too many; a spreadsheet's commas or semicolons; two bytes for a letter.

/// The byte order mark of UTF-8.
pub const MARK: &[u8] = b"\xef\xbb\xbf";
const HEADERS: [&[u8]; 2] = [b"name kind start loss rank", b"name location skill"];

/// Is the text UTF-16? Its own mark says so.
pub fn is_wide(text: &[u8]) -> bool {
    text.starts_with(b"\xff\xfe") || text.starts_with(b"\xfe\xff")
}

/// A text of UTF-16 as one of UTF-8, without its mark.
fn narrow(text: &[u8]) -> Vec<u8> {
    let little = text[0] == 0xff;
    let unit = |pair: &[u8]| match (pair, little) {
        ([low, high], true) | ([high, low], false) => u16::from_be_bytes([*high, *low]),
        _ => u16::from(b'?'),
    };
    let units: Vec<u16> = text[2..].chunks(2).map(unit).collect();
    String::from_utf16_lossy(&units).into_bytes()
}

/// The line with tabs and spaces mended: one space between fields, none at the ends, no carriage
/// return last.
pub fn mend_line(line: &[u8]) -> Vec<u8> {
    let end = line.iter().rposition(|byte| !b" \t\r".contains(byte)).map_or(0, |last| last + 1);
    let fields = line[..end].split(|&byte| byte == b' ' || byte == b'\t');
    let fields: Vec<&[u8]> = fields.filter(|field| !field.is_empty()).collect();
    fields.join(&b' ')
}

/// The lines of a text, mended; without the mark at its start.
pub fn mended_lines(text: &[u8]) -> impl Iterator<Item = Vec<u8>> + '_ {
    let text = text.strip_prefix(MARK).unwrap_or(text);
    let text = text.strip_suffix(b"\n").unwrap_or(text);
    text.split(|&byte| byte == b'\n').map(mend_line)
}

/// A line that is passed over as a remark. One with a carriage return within is none: a file whose
/// lines end in that alone would be one remark, and its hand-ins gone without a word.
pub fn is_remark(line: &[u8]) -> bool {
    line.starts_with(b"#") && !line.contains(&b'\r')
}

/// Spaces for a separator, and none for those that a spreadsheet puts behind the last field.
fn parted(line: &[u8], separator: u8) -> Vec<u8> {
    let spaced: Vec<u8> =
        line.iter().map(|&byte| if byte == separator { b' ' } else { byte }).collect();
    mend_line(&spaced)
}

/// The sign that a spreadsheet has put between the fields of a header.
pub fn separator(line: &[u8]) -> Option<u8> {
    let parts = |sign: &u8| line.contains(sign) && HEADERS.contains(&&parted(line, *sign)[..]);
    [b',', b';'].into_iter().find(parts)
}

/// The mended copy of a text.
pub fn tidy(text: &[u8]) -> Vec<u8> {
    let text = if is_wide(text) { narrow(text) } else { text.to_vec() };
    let mut lines: Vec<Vec<u8>> = mended_lines(&text).collect();
    if let Some(sign) = lines.first().and_then(|line| separator(line)) {
        lines = lines.iter().map(|line| parted(line, sign)).collect();
    }
    while lines.last().is_some_and(|line| line.is_empty()) {
        lines.pop();
    }
    lines.iter().flat_map(|line| [&line[..], b"\n"].concat()).collect()
}
