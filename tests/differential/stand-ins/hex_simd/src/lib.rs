//! Hexadecimal text to bytes.

#[derive(Debug)]
pub struct Error;

pub fn decode_to_vec(text: &str) -> Result<Vec<u8>, Error> {
    let digits = text.chars().map(|c| c.to_digit(16).ok_or(Error)).collect::<Result<Vec<u32>, Error>>()?;
    if digits.len() % 2 != 0 {
        return Err(Error);
    }
    Ok(digits.chunks(2).map(|pair| (pair[0] * 16 + pair[1]) as u8).collect())
}
