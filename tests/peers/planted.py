"""Mistakes planted in our own reading, one at a time: each must be a difference to every reader that
hands out what it is in."""

import collections
import copy

import rules

# How many messages each mistake is planted in.
TRIED = 40


def wrong(value):
    """A value next to the right one: a number whose last bit is the other, another character or byte,
    a pair that is a unit shorter, what isn't there."""
    if isinstance(value, bool):
        return not value
    if isinstance(value, int):
        return value ^ 1
    if isinstance(value, str):
        return other(value, "x", "y", "\0")
    if isinstance(value, bytes):
        return other(value, b"x", b"y", b"\0")
    if isinstance(value, list):
        return value[:-1] + [(value[-1][0], value[-1][1][:-2])] if value and value[-1][1] else value + [(1, b"")]
    return 1 if value is None else None


def other(value, this, that, zero):
    """With another last character; with another first one where a zero may end it before."""
    if zero in value:
        return (that if value.startswith(this) else this) + value[1:]
    return value[:-1] + (that if value.endswith(this) else this)


def plant(message, key):
    """The message with a mistake in our reading of it."""
    changed = copy.copy(message)
    changed.ours = message.ours | {key: wrong(message.ours[key])}
    return changed


def is_compared(reader, message, key):
    """Whether a reader says something of this key that goes by our reading."""
    expected, _ = rules.expected(reader, message)
    return isinstance(expected, dict) and expected.get(key, rules.ANY) is not rules.ANY


def tried(reader, read, differences):
    """How many planted mistakes were found, and in words each that wasn't, or that had no message."""
    count, found, lost = collections.Counter(), 0, []
    for message, theirs in read:
        for key in reader.keys(message.kind):
            what = (message.kind, key)
            if key not in message.ours or count[what] >= TRIED or not is_compared(reader, message, key):
                continue
            count[what] += 1
            expected, _ = rules.expected(reader, plant(message, key))
            if differences(expected, theirs):
                found += 1
            else:
                lost.append(f"NOT FOUND: {key} of {message.origin}, {message.kind}, planted for {reader.NAME}")
    kinds = {message.kind for message, _ in read}
    for kind in sorted(kinds):
        for key in reader.keys(kind):
            if key != "whole" and not count[kind, key]:
                lost.append(f"NOT PLANTED: {key} of {kind} for {reader.NAME}: no message has it")
    return found, lost
