"""Texts that all have one hash in the kit's tables, `IndexMap` and `IndexSet`."""
import functools
import itertools

# The hash of the kit's tables has no secret, so such texts can be made. It takes a text in blocks of 16 bytes: of two numbers of 8 bytes, the first is mixed
# with the state and the second with the multiplier, and the halves of their product are the next state. Where the first number is the state itself, the
# product is 0, whatever the second is.
MASK, MULTIPLIER, INITIAL = 2 ** 64 - 1, 0x9E37_79B9_7F4A_7C15, 0x243F_6A88_85A3_08D3
NAME_LETTERS = "abcdefghijklmnopqrstuvwxyzABCDEFGHIJKLMNOPQRSTUVWXYZ0123456789_$"
URL_LETTERS = NAME_LETTERS + "-.~!&'()*+,;=:@"


def next_state(state, block):
    first, second = (int.from_bytes(half, "little") for half in (block[:8], block[8:]))
    product = (first ^ state) * (second ^ MULTIPLIER)
    return (product & MASK) ^ (product >> 64)


@functools.cache
def colliding_front(letters, before):
    """A text that begins so, behind which 8 letters more make one hash, whichever they are: its last 8 bytes are the state behind those in front of them."""
    head, allowed = before.encode(), set(letters.encode())
    whole = len(head) // 16 * 16
    state = (INITIAL + whole + 32) & MASK
    for at in range(0, whole, 16):
        state = next_state(state, head[at:at + 16])
    for more in itertools.product(letters, repeat=16 - (len(head) - whole)):
        block = head[whole:] + "".join(more).encode()
        behind = next_state(state, block).to_bytes(8, "little")
        if allowed.issuperset(behind):
            return (head[:whole] + block + behind).decode()
    raise ValueError(f"no text of these letters that begins with {before!r} leaves a state of them")


def colliding(n, letters, before=""):
    """n texts of one length and one hash, of these letters behind the same beginning."""
    front = colliding_front(letters, before)
    return [front + "".join(last) for last in itertools.islice(itertools.product(letters, repeat=8), n)]
