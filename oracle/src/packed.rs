// Many books in one stream: each book's length in two bytes, low byte first, then its bytes.

pub fn pack(out: &mut Vec<u8>, book: &[u8]) {
    let length = u16::try_from(book.len()).expect("a generated book stays under 65,536 bytes");
    out.extend(length.to_le_bytes());
    out.extend(book);
}

/// The books of a stream; Err if the stream breaks off within one.
pub fn unpack(mut stream: &[u8]) -> Result<Vec<&[u8]>, String> {
    let mut books = Vec::new();
    while !stream.is_empty() {
        let Some((book, rest)) = first(stream) else {
            return Err(format!("the packed books break off in book {}", books.len() + 1));
        };
        books.push(book);
        stream = rest;
    }
    Ok(books)
}

fn first(stream: &[u8]) -> Option<(&[u8], &[u8])> {
    let (length, rest) = stream.split_first_chunk::<2>()?;
    rest.split_at_checked(u16::from_le_bytes(*length).into())
}
