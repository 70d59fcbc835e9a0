"""An input that shows a difference, made shorter while it still shows it."""
import itertools
import time

SHRINK_SECONDS = 40


def dropped(parts, joined):
    """The inputs with a run of parts dropped, half of them first, single ones last."""
    size = (len(parts) + 1) // 2
    while size:
        for at in range(0, len(parts), size):
            yield joined(parts[:at] + parts[at + size:])
        size //= 2


def halved(given):
    """The inputs with one parenthesis of the text dropped but for its left or its right part."""
    opened = []
    for place, byte in enumerate(given.split(b'\n', 1)[0]):
        if byte == ord('('):
            opened.append([place, place])
        elif opened and byte in b'+.&':
            opened[-1][1] = place
        elif opened and byte == ord(')'):
            start, sign = opened.pop()
            yield given[:start] + given[start + 1:sign] + given[place + 1:]
            yield given[:start] + given[sign + 1:place] + given[place + 1:]


BYTES = [lambda given: dropped(given.splitlines(keepends=True), b''.join),
         lambda given: sorted(halved(given), key=len), lambda given: dropped(given, bytes)]
PIECES = [lambda pieces: dropped(pieces, list)]


def shrunk(given, differs, ways):
    """The input, shorter while `differs` still says so; the ways to shorten it are tried by turns
    until none helps or the time is spent."""
    end = time.monotonic() + SHRINK_SECONDS
    ways = list(ways)
    idle = 0
    while idle < len(ways):
        way = ways.pop(0)
        ways.append(way)
        idle += 1
        tried = itertools.takewhile(lambda _: time.monotonic() < end, way(given))
        for shorter in itertools.islice(filter(differs, tried), 1):
            given = shorter
            idle = 0
    return given
