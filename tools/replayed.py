"""What `replay` writes, taken apart."""


def parted(text):
    """The answers in what a program wrote, each with its LF; that of `hourly` with the bytes it announces."""
    at = 0
    while at < len(text):
        end = text.find(b"\n", at) + 1 or len(text)
        word, _, size = text[at:end].partition(b" ")
        if word == b"hourly" and size.strip().isdigit():
            end += int(size)
        yield text[at:end]
        at = end
