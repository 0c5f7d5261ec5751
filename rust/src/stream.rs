//! Messages out of a stream that comes in chunks of any size.

use crate::limits::MESSAGE_BYTES;
use crate::{calls, MessageRefusal, Refused};

/// A reader of the messages of a stream, which come one after the other, with or without blanks between them, and in
/// chunks that are cut anywhere. Each ends at the closing bracket of an outermost object or array.
///
/// ```
/// use windosprio::{MessageRefusal, StreamReader};
///
/// let mut reader = StreamReader::new();
/// let mut seen = Vec::new();
/// for chunk in [&b"{\"execute\":\"st"[..], b"op\"} [1", b"] x"] {
///     let mut chunk = reader.push(chunk);
///     while let Some(item) = chunk.next() {
///         seen.push(item.map(|message| message.to_vec()).map_err(|refused| refused.why()));
///     }
/// }
/// assert_eq!(seen, [Ok(br#"{"execute":"stop"}"#.to_vec()), Ok(b"[1]".to_vec()), Err(MessageRefusal::NotText)]);
/// ```
///
/// A refusal is [`TooLong`](MessageRefusal::TooLong), [`NotText`](MessageRefusal::NotText) or
/// [`TooDeep`](MessageRefusal::TooDeep), and points nowhere; then all is skipped up to and with the next clearing byte:
/// 0xFF, or a byte below 0x20 other than tab, CR and LF. A clearing byte inside a message drops it, `NotText`, and skips
/// nothing. A message that is handed out is JSON text within the limits, so that
/// [`Schema::check`](crate::Schema::check) gives none of the three for it.
///
/// It holds its room and three words, and allocates nothing while it reads.
#[derive(Clone, Debug)]
pub struct StreamReader {
    state: calls::StreamState,
    /// Its start has the bytes of the message that is being read.
    room: Box<[u8]>,
}

impl StreamReader {
    /// For messages of at most [`MESSAGE_BYTES`] bytes.
    pub fn new() -> Self {
        Self::with_room(MESSAGE_BYTES)
    }

    /// For messages of at most so many bytes; a longer one is [`TooLong`](MessageRefusal::TooLong). More than
    /// [`MESSAGE_BYTES`] are as many.
    pub fn with_room(bytes: usize) -> Self {
        StreamReader { state: calls::stream_start(), room: vec![0; bytes.min(MESSAGE_BYTES)].into() }
    }

    /// The messages and refusals of the next chunk. Bytes that aren't taken from it are lost to the stream: ask it
    /// until it has no more, or hand its [`rest`](Chunk::rest) in again.
    #[must_use = "a chunk is read as its messages are asked for"]
    pub fn push<'a>(&'a mut self, chunk: &'a [u8]) -> Chunk<'a> {
        Chunk { reader: self, rest: chunk }
    }
}

impl Default for StreamReader {
    fn default() -> Self {
        Self::new()
    }
}

/// A chunk of a stream that is being read.
#[derive(Debug)]
pub struct Chunk<'a> {
    reader: &'a mut StreamReader,
    rest: &'a [u8],
}

impl Chunk<'_> {
    /// The next message or refusal that ends in this chunk; none when all of it is read. A message is lent until the
    /// next one is asked for.
    #[allow(clippy::should_implement_trait, reason = "what it gives is lent from the reader's room")]
    pub fn next(&mut self) -> Option<Result<&[u8], Refused<MessageRefusal>>> {
        let fed = calls::stream_feed(&mut self.reader.state, &mut self.reader.room, self.rest);
        self.rest = &self.rest[fed.taken..];
        match fed {
            calls::Fed { number: 0, message_bytes: 0, .. } => None,
            calls::Fed { number: 0, message_bytes, .. } => Some(Ok(&self.reader.room[..message_bytes])),
            calls::Fed { number, .. } => Some(Err(Refused::of_stream(number))),
        }
    }

    /// The bytes that aren't read yet.
    pub fn rest(&self) -> &[u8] {
        self.rest
    }
}

#[cfg(test)]
mod tests {
    use super::*;

    /// What chunks give, one after the other.
    fn given(reader: &mut StreamReader, chunks: &[&[u8]]) -> Vec<Result<Vec<u8>, MessageRefusal>> {
        let mut all = Vec::new();
        for chunk in chunks {
            let mut chunk = reader.push(chunk);
            while let Some(item) = chunk.next() {
                all.push(item.map(|message| message.to_vec()).map_err(Refused::why));
            }
            assert!(chunk.rest().is_empty());
        }
        all
    }

    #[test]
    fn messages_come_whole_however_they_are_cut() {
        let stream = b" {\"a\":[1,\"\xC3\xA4\"]}[]\n[\"\\uD83D\\uDE00\"] ";
        let whole = given(&mut StreamReader::new(), &[stream]);
        assert_eq!(whole.iter().flatten().map(Vec::len).collect::<Vec<_>>(), [14, 2, 16]);
        for cut in 0..=stream.len() {
            let (start, rest) = stream.split_at(cut);
            assert_eq!(given(&mut StreamReader::new(), &[start, b"", rest]), whole, "cut at {cut}");
        }
    }

    #[test]
    fn a_refusal_skips_to_a_clearing_byte() {
        let all = given(&mut StreamReader::new(), &[b"[1}[]", b"[]\xFF[]", b"[\0[]\0"]);
        assert_eq!(
            all,
            [Err(MessageRefusal::NotText), Ok(b"[]".to_vec()), Err(MessageRefusal::NotText), Ok(b"[]".to_vec())]
        );
    }

    #[test]
    fn a_message_has_at_most_the_room() {
        let stream: &[u8] = b"[12][123]\0[1]";
        assert_eq!(
            given(&mut StreamReader::with_room(4), &[stream]),
            [Ok(b"[12]".to_vec()), Err(MessageRefusal::TooLong), Ok(b"[1]".to_vec())]
        );
        assert_eq!(given(&mut StreamReader::with_room(0), &[b"[\0x"]).len(), 2);
        assert_eq!(StreamReader::with_room(usize::MAX >> 8).room.len(), MESSAGE_BYTES);
    }

    #[test]
    fn what_is_left_of_a_chunk_can_be_handed_in_again() {
        let mut reader = StreamReader::new();
        let mut chunk = reader.push(b"[][1][");
        assert_eq!(chunk.next(), Some(Ok(&b"[]"[..])));
        let rest = chunk.rest().to_vec();
        assert_eq!(given(&mut reader, &[&rest, b"2]"]), [Ok(b"[1]".to_vec()), Ok(b"[2]".to_vec())]);
    }

    #[test]
    fn brackets_too_deep_are_refused() {
        assert_eq!(given(&mut StreamReader::new(), &[&[b'['; 40]]), [Err(MessageRefusal::TooDeep)]);
    }
}
