//! Feeds every text of up to five tokens through the proved reading functions and through a reader of another kind
//! (a scan for the refusals, then operator precedence with two stacks), and compares what they answer.

#[repr(C)]
struct ReadAnswer {
    number: u32,
    place: usize,
    len: usize,
}

extern "C" {
    fn mehaldub_read(text: *const u8, text_len: usize, out: *mut u8, out_len: usize, answer: *mut ReadAnswer);
}

fn proved(text: &[u8]) -> Result<String, (u32, usize)> {
    let mut out = [0u8; 256];
    let mut answer = ReadAnswer { number: 99, place: 0, len: 0 };
    unsafe { mehaldub_read(text.as_ptr(), text.len(), out.as_mut_ptr(), out.len(), &mut answer) };
    match answer.number {
        0 => Ok(String::from_utf8_lossy(&out[..answer.len]).into_owned()),
        n => Err((n, answer.place)),
    }
}

/// A word, its place, and whether the words refuse it.
fn cut(text: &str) -> Vec<(String, usize, Option<u32>)> {
    let bytes = text.as_bytes();
    let mut at = 0;
    let mut tokens = Vec::new();
    while at < bytes.len() {
        let b = bytes[at];
        if b == b' ' || b == b'\n' {
            at += 1;
        } else if text[at..].starts_with("->") {
            tokens.push(("->".into(), at, None));
            at += 2;
        } else if b"()&|".contains(&b) {
            tokens.push(((b as char).to_string(), at, None));
            at += 1;
        } else if b.is_ascii_lowercase() {
            let rest = &bytes[at..];
            let n = rest.iter().take_while(|c| c.is_ascii_lowercase() || c.is_ascii_digit() || **c == b'_').count();
            tokens.push((text[at..at + n].into(), at, if n > 16 { Some(2) } else { None }));
            at += n;
        } else {
            tokens.push((String::new(), at, Some(1)));
            at += 1;
        }
    }
    tokens
}

fn is_prefix(t: &str) -> bool {
    matches!(t, "not" | "next" | "always" | "eventually")
}

fn level(t: &str) -> Option<(u8, bool)> {
    // how tightly it binds, and whether it groups to the right
    match t {
        "until" => Some((4, true)),
        "&" => Some((3, false)),
        "|" => Some((2, false)),
        "->" => Some((1, true)),
        _ => None,
    }
}

fn letter(t: &str) -> char {
    match t {
        "not" => '!',
        "next" => 'X',
        "always" => 'G',
        "eventually" => 'F',
        "until" => 'U',
        "->" => '>',
        "&" => '&',
        "|" => '|',
        _ => '?',
    }
}

fn refusal(text: &str) -> Option<(u32, usize)> {
    let (mut due, mut open, mut seen) = (true, 0usize, 0usize);
    for (t, place, bad) in cut(text) {
        if let Some(n) = bad {
            return Some((n, place));
        }
        let paren = t == "(" || t == ")";
        if !paren {
            if seen == 32 {
                return Some((6, place));
            }
            seen += 1;
        }
        let operator = level(&t).is_some();
        let fits = if due { !operator && t != ")" } else { operator || (t == ")" && open > 0) };
        if !fits {
            return Some((3, place));
        }
        if t == "(" {
            open += 1;
        } else if t == ")" {
            open -= 1;
            due = false;
        } else if operator {
            due = true;
        } else if !is_prefix(&t) {
            let known = matches!(t.as_str(), "true" | "false" | "a" | "b" | "c");
            if !known {
                return Some((5, place));
            }
            due = false;
        }
    }
    if due || open > 0 {
        return Some((4, text.len()));
    }
    None
}

/// Folds the operators on top of the stack that bind at least as the new one asks.
fn reduce(operands: &mut Vec<String>, operators: &mut Vec<String>) {
    let t = operators.pop().unwrap();
    if is_prefix(&t) {
        let f = operands.pop().unwrap();
        operands.push(format!("{}{}", letter(&t), f));
    } else {
        let g = operands.pop().unwrap();
        let f = operands.pop().unwrap();
        operands.push(format!("{}{}{}", letter(&t), f, g));
    }
}

fn formula(text: &str) -> String {
    let mut operands: Vec<String> = Vec::new();
    let mut operators: Vec<String> = Vec::new();
    for (t, _, _) in cut(text) {
        if t == "(" || is_prefix(&t) {
            operators.push(t);
        } else if t == ")" {
            while operators.last().unwrap() != "(" {
                reduce(&mut operands, &mut operators);
            }
            operators.pop();
        } else if let Some((new, right)) = level(&t) {
            while let Some(top) = operators.last() {
                let stays = match level(top) {
                    Some((old, _)) => old < new || (old == new && right),
                    None => top == "(",
                };
                if stays {
                    break;
                }
                reduce(&mut operands, &mut operators);
            }
            operators.push(t);
        } else {
            operands.push(match t.as_str() {
                "true" => "1".into(),
                "false" => "0".into(),
                name => name.into(),
            });
        }
    }
    while !operators.is_empty() {
        reduce(&mut operands, &mut operators);
    }
    operands.pop().unwrap()
}

fn main() {
    let vocabulary = [
        "a", "b", "z", "true", "false", "not", "next", "always", "eventually", "until", "&", "|", "->", "(", ")", "-", "abcdefghijklmnopq",
    ];
    let (mut texts, mut formulas, mut differ) = (0u64, 0u64, 0u64);
    for n in 0..=5u32 {
        for code in 0..(vocabulary.len() as u64).pow(n) {
            let mut rest = code;
            let mut words = Vec::new();
            for _ in 0..n {
                words.push(vocabulary[(rest % vocabulary.len() as u64) as usize]);
                rest /= vocabulary.len() as u64;
            }
            let text = words.join(" ");
            let expected = match refusal(&text) {
                Some(r) => Err(r),
                None => Ok(formula(&text)),
            };
            let told = proved(text.as_bytes());
            texts += 1;
            formulas += told.is_ok() as u64;
            if told != expected {
                differ += 1;
                if differ <= 10 {
                    println!("'{text}': proved {told:?}, other {expected:?}");
                }
            }
        }
    }
    println!("{texts} texts, {formulas} formulas, {differ} differences");
    std::process::exit((differ > 0) as i32);
}
