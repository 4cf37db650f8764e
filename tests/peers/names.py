"""Names by RFC 1035 section 4.1.4 as other programs read them: a jump's place is counted from the
first byte of the message, and not from that of the buffer, which is house (request 5/12)."""

JUMP = 0xC0
MESSAGE, BUFFER = 0, 8
# Samba follows so many jumps in a row, and takes so many labels for a name.
MOST_IN_A_ROW, MOST_LABELS = 5, 128
# What is read by the house's rule has been taken, with at most 16 jumps.
HOUSE_MOST = 17


def label_at(message, at, base):
    """The label at a place, none at a name's end, and what comes after it: how Samba finds them.
    The last number is the farthest place that was looked at. Raises where it refuses."""
    farthest = at
    for _ in range(MOST_IN_A_ROW if base == MESSAGE else HOUSE_MOST):
        first = message[at]
        if first & JUMP == JUMP:
            farthest = max(farthest, at + 2)
            at = base + ((first & 0x3F) << 8 | message[at + 1])
            farthest = max(farthest, at)
        elif first & JUMP or at + 1 + first > len(message):
            raise IndexError
        else:
            after = at + 1 + first
            return message[at + 1 : after] if first else None, after, max(farthest, after)
    raise IndexError


def name_at(message, at, base):
    """The labels of the name at a place, and where the next string begins. Raises as `label_at`."""
    labels, farthest = [], at
    while len(labels) < MOST_LABELS:
        label, at, last = label_at(message, at, base)
        farthest = max(farthest, last)
        if label is None:
            return labels, farthest
        labels.append(label)
    raise IndexError


def strings(message, letters, base, ended):
    """The strings of a request by their letters: where each stands, how long it is to us, and its
    text, A and B up to a zero; `ended` gives the part of a label that is shown. None where one is
    refused."""
    found, at = {}, BUFFER
    try:
        for letter in letters:
            if letter in "ab":
                end = message.index(0, at)
                found[letter], at = (at, end - at, message[at:end]), end + 1
            else:
                labels, farthest = name_at(message, at, base)
                text, own = b".".join(ended(label) for label in labels), own_end(message, at)
                found[letter], at = (at, own - at, text), farthest if base == MESSAGE else own
    except (IndexError, ValueError):
        return None
    return found


def own_end(message, at):
    """Where a name's own bytes end: after its zero byte or its first jump."""
    while 0 < message[at] < 64:
        at += 1 + message[at]
    return at + (2 if message[at] & JUMP == JUMP else 1)


def up_to_zero(label):
    return label.split(b"\0")[0]


def whole(label):
    return label


ROOT, TOO_LONG = b"<Root>", b"<Name too long>"
MOST_SHOWN = 255


def shown_name(message, start):
    """A name as tshark shows it, and how many bytes it takes for it. It counts from the message's
    first byte. Raises where what stands there is no name: a jump or a label out of the message,
    another first byte, jumps in a circle, which come to more bytes than there are."""
    at, own, text, looked = start, None, b"", 0
    while message[at]:
        first, at, looked = message[at], at + 1, looked + 1
        if first & JUMP == JUMP:
            place = (first & 0x3F) << 8 | message[at]
            own = own or at + 1 - start
            looked += 1
            if looked >= len(message):
                raise IndexError
            at = place
        elif first & JUMP or at + first > len(message):
            raise IndexError
        else:
            text += (b"." if text else b"") + message[at : at + first]
            at, looked = at + first, looked + first
    own = own or at + 1 - start
    if len(text) > MOST_SHOWN:
        return TOO_LONG, own
    text = up_to_zero(text)
    return text if text or own > 2 else ROOT, own
