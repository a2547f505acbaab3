//! The one frame of an input: alone, or in a line of candump's log.

/// The frame's own text, which has a `#`. The error says what is wrong with the input.
pub fn frame(input: &[u8]) -> Result<&[u8], String> {
    let (logged, line) = behind_timestamp(input.trim_ascii());
    let words: Vec<&[u8]> = line
        .split(u8::is_ascii_whitespace)
        .filter(|word| !word.is_empty())
        .collect();
    match words.iter().filter(|word| has_mark(word)).count() {
        0 => return Err("there is no frame in the input".to_string()),
        1 => {}
        _ => return Err("there is more than one frame in the input".to_string()),
    }
    match (logged, &words[..]) {
        (false, [frame]) | (true, [_, frame] | [_, frame, b"R" | b"T"]) if has_mark(frame) => {
            Ok(frame)
        }
        _ => Err("the input is neither a frame alone nor a line as candump -L has it".to_string()),
    }
}

fn has_mark(word: &[u8]) -> bool {
    word.contains(&b'#')
}

/// Whether there is a timestamp in parentheses, and what stands behind it.
fn behind_timestamp(line: &[u8]) -> (bool, &[u8]) {
    match line.iter().position(|&byte| byte == b')') {
        Some(end) if line.starts_with(b"(") => (true, &line[end + 1..]),
        _ => (false, line),
    }
}
