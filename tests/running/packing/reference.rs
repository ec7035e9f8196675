//! What packing and unpacking have to answer, by the words of the scope paper: bit by bit, on a row of bits.

const MOST_WORDS: u32 = 1_048_576;
pub const MOST_CODES: usize = 8;

/// A refusal's number, or what a call writes.
pub type Written = Result<Vec<u8>, i32>;

/// b: 0 if W = 1, else the length of W - 1 in binary.
pub fn width(words: u32) -> usize {
    if words == 1 {
        0
    } else {
        format!("{:b}", words - 1).len()
    }
}

/// n codes take n × b / 8 bytes, rounded up.
pub fn packed_length(words: u32, n: usize) -> usize {
    let bits = n * width(words);
    bits / 8 + usize::from(bits % 8 > 0)
}

/// The last `count` bits of a number, highest first.
fn bits(number: u32, count: usize) -> Vec<bool> {
    (0..count)
        .rev()
        .map(|place| number / 2u32.pow(place as u32) % 2 == 1)
        .collect()
}

fn number(bits: &[bool]) -> u32 {
    bits.iter()
        .fold(0, |number, bit| 2 * number + u32::from(*bit))
}

/// The codes' bits one after the other, and zero bits up to the byte's end.
pub fn packed(words: u32, codes: &[u32]) -> Vec<u8> {
    let mut row: Vec<bool> = Vec::new();
    for code in codes {
        row.extend(bits(*code, width(words)));
    }
    while row.len() % 8 > 0 {
        row.push(false);
    }
    row.chunks(8).map(|byte| number(byte) as u8).collect()
}

fn common_refusals(words: u32, n: usize) -> Result<(), i32> {
    if words == 0 || words > MOST_WORDS {
        return Err(9);
    }
    if n == 0 || n > MOST_CODES {
        return Err(12);
    }
    Ok(())
}

pub fn pack(words: u32, codes: &[u32], out_length: usize) -> Written {
    common_refusals(words, codes.len())?;
    if codes.iter().any(|code| *code >= words) {
        return Err(15);
    }
    let bytes = packed(words, codes);
    if out_length < bytes.len() {
        return Err(16);
    }
    Ok(bytes)
}

pub fn unpack(words: u32, n: u32, packed: &[u8], out_length: usize) -> Written {
    let n = n as usize;
    common_refusals(words, n)?;
    let row: Vec<bool> = packed.iter().flat_map(|b| bits((*b).into(), 8)).collect();
    let b = width(words);
    if packed.len() != packed_length(words, n) || row[n * b..].contains(&true) {
        return Err(14);
    }
    let codes: Vec<u32> = (0..n).map(|i| number(&row[i * b..i * b + b])).collect();
    if codes.iter().any(|code| *code >= words) {
        return Err(15);
    }
    if out_length < 4 * n {
        return Err(16);
    }
    Ok(codes.iter().flat_map(|code| code.to_le_bytes()).collect())
}
