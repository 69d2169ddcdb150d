//! The proved library, by the functions of crates/capi.

#[repr(C)]
struct Answer {
    refused: u32,
    value: u32,
}

extern "C" {
    fn maudrike_bind(text: *const u8, text_len: usize) -> Answer;
    fn maudrike_list(
        text: *const u8,
        text_len: usize,
        words: *const u8,
        words_len: usize,
        out: *mut u8,
        out_len: usize,
    ) -> Answer;
    fn maudrike_fit(text: *const u8, text_len: usize, words: *const u8, words_len: usize, a: u32, b: u32) -> Answer;
    fn maudrike_tidy(text: *const u8, text_len: usize, out: *mut u8, out_len: usize) -> Answer;
}

/// A refusal: its number, and the value returned with it.
#[derive(Clone, Copy, Debug, PartialEq, Eq)]
pub struct Refusal(pub u32, pub u32);

fn answer(answer: Answer) -> Result<usize, Refusal> {
    match answer.refused {
        0 => Ok(answer.value as usize),
        number => Err(Refusal(number, answer.value)),
    }
}

/// The words as bytes, each low byte first.
pub fn bytes(words: &[u32]) -> Vec<u8> {
    words.iter().flat_map(|w| w.to_le_bytes()).collect()
}

/// Reads a text and binds it by the case line's alphabet.
pub fn bind(text: &str) -> Result<usize, Refusal> {
    answer(unsafe { maudrike_bind(text.as_ptr(), text.len()) })
}

/// The number of stretches, which `out` then holds, two bytes each.
pub fn list_into(text: &str, words: &[u8], out: &mut [u8]) -> Result<usize, Refusal> {
    answer(unsafe {
        maudrike_list(
            text.as_ptr(),
            text.len(),
            words.as_ptr(),
            words.len(),
            out.as_mut_ptr(),
            out.len(),
        )
    })
}

pub fn list(text: &str, words: &[u32]) -> Result<Vec<(usize, usize)>, Refusal> {
    let mut out = vec![0; 2 * 255 * 128];
    let count = list_into(text, &bytes(words), &mut out)?;
    Ok(out[..2 * count]
        .chunks(2)
        .map(|c| (c[0] as usize, c[1] as usize))
        .collect())
}

pub fn fit(text: &str, words: &[u32], a: usize, b: usize) -> Result<bool, Refusal> {
    let words = bytes(words);
    answer(unsafe {
        maudrike_fit(
            text.as_ptr(),
            text.len(),
            words.as_ptr(),
            words.len(),
            a as u32,
            b as u32,
        )
    })
    .map(|n| n == 1)
}

/// The text of the tidied query.
pub fn tidy(text: &str) -> Result<String, Refusal> {
    let mut out = vec![0; 4096];
    let length = answer(unsafe { maudrike_tidy(text.as_ptr(), text.len(), out.as_mut_ptr(), out.len()) })?;
    Ok(String::from_utf8_lossy(&out[..length]).into_owned())
}
