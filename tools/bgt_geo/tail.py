"""Why bytes were left after the last message."""


def explain(tail: bytes, has_texts: bool) -> str:
    """What the bytes after the last `EINDE` line are, and how to be rid of them."""
    if tail.startswith((b"\xff\xfe", b"\xfe\xff")) or tail.count(b"\0") > len(tail) // 4:
        return "the file is in UTF-16: save it as ASCII"
    lines = tail.split(b"\n")
    if b"EINDE\r" in lines or tail.endswith(b"EINDE\r"):
        return "the file has carriage returns (CRLF): save it with Unix line ends (LF), and no message is lost"
    if lines[-1] == b"EINDE":
        return "the last line has no line feed: add one after EINDE"
    if tail.strip() == b"":
        return "a blank line stands after the last message: take it out; all messages before it were answered"
    if all(line.strip() == b"" or line.startswith((b"#", b"//", b"--", b";")) for line in lines):
        return "a comment stands after the last message: take it out; all messages before it were answered"
    if any(line.strip().upper() == b"EINDE" for line in lines):
        return "a line is EINDE with a space beside it, or in small letters: it has to be exactly EINDE"
    if tail.lstrip().startswith(b"<"):
        return "this is XML: the register takes messages in lines; `bgt-geo messages` makes them from a GIS format"
    if b"BERICHT" in tail:
        return "the last message has no EINDE line: write it"
    return "what stands after the last message is none: take it out" if has_texts else "the file has no message: no line is EINDE"
