//! What the tool `flatten` prints: stops as the bits of their numbers. It is a list, so it is mixed linearly.

use super::{lines, stumble, File, Row, Source};
use crate::fault::Answer;
use guineaplume::slices::Kind;

pub fn read(file: &File) -> Answer<Source> {
    let mut rows = Vec::new();
    for (line, said) in lines(file.text).skip(1) {
        let numbers: Option<Vec<f32>> =
            said.strip_prefix("stop\t").and_then(|rest| rest.split('\t').map(bits).collect());
        match numbers.map(<[f32; 5]>::try_from) {
            Some(Ok([position, channels @ ..])) => rows.push(Row { line, position, channels }),
            _ => {
                let expected = "expected 'stop' and 5 times 8 hexadecimal digits parted by tabs";
                return file.unread(line, format!("{expected}; found {}", stumble::quoted(&said)));
            }
        }
    }
    let ramp = file.checked(Kind::Linear, &rows)?;
    Ok(file.gives(ramp))
}

fn bits(field: &str) -> Option<f32> {
    let is_hex = field.len() == 8 && field.bytes().all(|byte| byte.is_ascii_hexdigit());
    is_hex.then(|| u32::from_str_radix(field, 16).ok().map(f32::from_bits)).flatten()
}
