//! Configurations as long as is asked for.

/// Fields of a channel's line that may be longer, the name and the circuit, and the most characters of each.
const LONGER: [(usize, usize); 2] = [(1, 128), (3, 64)];

/// The configuration with longer names and circuits of its channels, until it has so many bytes.
pub fn filled_up(cfg: &[u8], size: usize) -> Vec<u8> {
    let text = String::from_utf8_lossy(cfg);
    let mut left = size - cfg.len();
    let lines: Vec<String> = text.split("\r\n").map(|line| longer(line, &mut left)).collect();
    assert_eq!(left, 0, "a configuration with fewer channels can't be so long");
    lines.join("\r\n").into_bytes()
}

/// A channel's line with up to so many bytes more, which are then no longer left; another line as it is.
fn longer(line: &str, left: &mut usize) -> String {
    let mut fields: Vec<String> = line.split(',').map(str::to_string).collect();
    if fields.len() < 5 {
        return line.to_string();
    }
    for (field, most) in LONGER {
        let more = (*left).min(most - fields[field].len());
        fields[field].push_str(&"n".repeat(more));
        *left -= more;
    }
    fields.join(",")
}
