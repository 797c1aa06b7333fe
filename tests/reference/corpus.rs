//! Many images in one stream: the number of images, then each image's length and bytes;
//! numbers are big-endian, 32 bits (tests/corpus/README.md).

use crate::decode::Decoder;
use crate::report::report;

pub fn reports(decoder: &Decoder, corpus: &[u8]) -> Result<String, String> {
    let (count, mut rest) = number(corpus)?;
    let mut out = String::new();
    for index in 1..=count {
        let (image, after) = image(rest)?;
        out += &format!("image {index}\n{}", report(decoder, image));
        rest = after;
    }
    if rest.is_empty() { Ok(out) } else { Err("bytes after the last image".to_string()) }
}

fn number(bytes: &[u8]) -> Result<(u32, &[u8]), String> {
    let (first, rest) = bytes.split_first_chunk::<4>().ok_or("the corpus ends within a number")?;
    Ok((u32::from_be_bytes(*first), rest))
}

fn image(bytes: &[u8]) -> Result<(&[u8], &[u8]), String> {
    let (length, rest) = number(bytes)?;
    rest.split_at_checked(length as usize).ok_or("the corpus ends within an image".to_string())
}

pub fn write(images: &[Vec<u8>]) -> Vec<u8> {
    let mut out = (images.len() as u32).to_be_bytes().to_vec();
    for image in images {
        out.extend((image.len() as u32).to_be_bytes());
        out.extend(image);
    }
    out
}
