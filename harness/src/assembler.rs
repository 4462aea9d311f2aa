//! Files that stand as text: calls, a line each, and lines that are repeated.

/// The calls: their words, the bytes they begin with, and how many numbers of four bytes follow. A new call is a line here.
const CALLS: [(&str, &[u8], usize); 9] = [
    ("lay take", &[0, 0], 3),
    ("lay give", &[0, 1], 3),
    ("lay take-sum", &[0, 2], 3),
    ("lay give-sum", &[0, 3], 3),
    ("lay fade", &[0, 4], 3),
    ("lift", &[1], 1),
    ("left", &[2], 1),
    ("row", &[3], 1),
    ("safe", &[4], 1),
];

fn number(word: &str) -> Result<u32, String> {
    word.parse().map_err(|_| format!("'{word}' is no number of 32 bits"))
}

fn numbers(words: &[&str]) -> Result<Vec<u8>, String> {
    let bytes: Vec<_> = words.iter().map(|word| number(word).map(u32::to_le_bytes)).collect::<Result<_, _>>()?;
    Ok(bytes.concat())
}

fn hex(words: &[&str]) -> Result<Vec<u8>, String> {
    let byte = |word: &&str| u8::from_str_radix(word, 16).ok().filter(|_| word.len() == 2);
    words.iter().map(|word| byte(word).ok_or_else(|| format!("'{word}' is no byte of two hexadecimal digits"))).collect()
}

fn call(words: &[&str]) -> Result<Vec<u8>, String> {
    for (name, bytes, count) in CALLS {
        let name: Vec<_> = name.split(' ').collect();
        match words.strip_prefix(name.as_slice()) {
            Some(fields) if fields.len() == count => return Ok([bytes, &numbers(fields)?].concat()),
            Some(_) => return Err(format!("'{}' wants so many numbers: {count}", name.join(" "))),
            None => {}
        }
    }
    Err(format!("'{}' can't be read", words.join(" ")))
}

/// Bytes with their length in front.
fn framed(bytes: Vec<u8>) -> Vec<u8> {
    [&(bytes.len() as u32).to_le_bytes(), bytes.as_slice()].concat()
}

fn line_of_calls(words: &[&str]) -> Result<Vec<u8>, String> {
    match words {
        [] => Ok(Vec::new()),
        ["repeat", times, line @ ..] => Ok(line_of_calls(line)?.repeat(number(times)? as usize)),
        ["open", limit, bound] => numbers(&[limit, bound]),
        ["bytes", bytes @ ..] => Ok(framed(hex(bytes)?)),
        ["length", length] => numbers(&[length]),
        ["raw", bytes @ ..] => hex(bytes),
        _ => Ok(framed(call(words)?)),
    }
}

fn line_of_text(line: &str) -> Result<Vec<u8>, String> {
    let Some(repeated) = line.strip_prefix("repeat ") else {
        return Ok(line.into());
    };
    let (times, line) = repeated.split_once(' ').ok_or("repeat wants a number and a line")?;
    Ok(line.repeat(number(times)? as usize).into())
}

fn assembled<'a>(
    lines: impl Iterator<Item = &'a str>,
    line_bytes: impl Fn(&str) -> Result<Vec<u8>, String>,
) -> Result<Vec<u8>, String> {
    let mut bytes = Vec::new();
    for (before, line) in lines.enumerate() {
        bytes.extend(line_bytes(line).map_err(|why| format!("line {}: {why}", before + 1))?);
    }
    Ok(bytes)
}

/// The bytes of a file of calls. `#` begins a comment.
pub fn calls(text: &str) -> Result<Vec<u8>, String> {
    assembled(text.lines(), |line| {
        let words = line.split('#').next().unwrap_or_default();
        line_of_calls(&words.split_whitespace().collect::<Vec<_>>())
    })
}

/// Text in which `repeat N LINE` stands for so many lines.
pub fn lines(text: &str) -> Result<Vec<u8>, String> {
    assembled(text.split_inclusive('\n'), line_of_text)
}

#[cfg(test)]
mod tests {
    use super::*;
    use crate::calls::Call;
    use crate::rules::Rule;

    #[test]
    fn each_call_is_itself_with_its_length_in_front() {
        let rules = (0..5).filter_map(|kind| Rule::of_kind(kind, [1, 2, u32::MAX]));
        let others = [Call::Lift(3), Call::Left(0x0102_0304), Call::Row(5), Call::Safe(6)];
        let all: Vec<u8> = rules.map(Call::Lay).chain(others).flat_map(|call| framed(call.to_bytes())).collect();
        let text = "lay take 1 2 4294967295\nlay give 1 2 4294967295\nlay take-sum 1 2 4294967295\nlay give-sum 1 2 4294967295
            lay fade 1 2 4294967295\nlift 3\nleft 16909060\nrow 5\nsafe 6\n";
        assert_eq!(calls(text), Ok(all));
    }

    #[test]
    fn a_head_and_what_is_no_call() {
        assert_eq!(calls("open 16 258 # limit and bound\n\n# no call\n"), Ok(vec![16, 0, 0, 0, 2, 1, 0, 0]));
        assert_eq!(calls("bytes 05 ff\nbytes"), Ok(vec![2, 0, 0, 0, 5, 255, 0, 0, 0, 0]));
        assert_eq!(calls("length 4294967295\nraw 01 00"), Ok(vec![255, 255, 255, 255, 1, 0]));
        assert_eq!(calls("repeat 2 lift 7"), Ok([5, 0, 0, 0, 1, 7, 0, 0, 0].repeat(2)));
    }

    #[test]
    fn lines_that_are_repeated() {
        assert_eq!(lines("a\nrepeat 3 b c\nrepeated\n"), Ok(b"a\nb c\nb c\nb c\nrepeated\n".to_vec()));
        assert_eq!(lines("a\r\nrepeat 2 b"), Ok(b"a\r\nbb".to_vec()));
    }

    #[test]
    fn a_line_that_cannot_be_read_is_told_by_its_number() {
        let why = |text: &str| calls(text).expect_err("it is read");
        assert_eq!(why("open 1 9\n\nlay tax 0 1 2"), "line 3: 'lay tax 0 1 2' can't be read");
        assert_eq!(why("left"), "line 1: 'left' wants so many numbers: 1");
        assert_eq!(why("lay fade 1 2 3 4"), "line 1: 'lay fade' wants so many numbers: 3");
        assert_eq!(why("left 4294967296"), "line 1: '4294967296' is no number of 32 bits");
        assert_eq!(why("raw 1"), "line 1: '1' is no byte of two hexadecimal digits");
        assert_eq!(why("repeat 2 repeat x left 1"), "line 1: 'x' is no number of 32 bits");
        assert_eq!(lines("a\nrepeat 3\n"), Err("line 2: repeat wants a number and a line".into()));
    }
}
