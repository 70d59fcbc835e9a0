"""Inputs in pieces: the ways to cut one, each a function of the input that answers the places where a piece ends, and inputs that suit
each way."""
import itertools

from expressions import MOST_BYTES, few_entries, good_text, many_entries, some_entries
from recordings import input_to_cut
from sites import file_to_cut

MOST_PIECES = 120
SIZES = [1, 2, 7, 100, 5000]
LAST_LINE = 'with the last line alone'
LONG_LINE = 'with a line over 4,096 bytes cut'


def newlines(given):
    return [place for place, byte in enumerate(given) if byte == ord('\n')]


def by(size):
    return lambda rng, given: range(size, len(given), size)


def mixed(rng, given):
    smaller = [size for size in SIZES if size < len(given)]
    return itertools.accumulate(rng.choice(smaller) for _ in range(len(given)))


def before_newlines(rng, given):
    return newlines(given)


def after_newlines(rng, given):
    return [place + 1 for place in newlines(given)]


def around_newlines(rng, given):
    return before_newlines(rng, given) + after_newlines(rng, given)


def inside_lines(rng, given):
    """One place or two inside each line that has two bytes, the expression's among them."""
    bounds = [-1, *newlines(given), len(given)]
    inner = [range(start + 2, end) for start, end in zip(bounds, bounds[1:]) if start + 2 < end]
    return [rng.choice(places) for places in inner for _ in range(2)]


def last_line(rng, given):
    """What follows the last newline comes alone."""
    return [given.rfind(b'\n') + 1]


def long_line(rng, given):
    """The rest of the longest line comes later, in two pieces; the first place is often at the most bytes of a line, or next to it."""
    bounds = [-1, *newlines(given), len(given)]
    length, start = max((end - start - 1, start + 1) for start, end in zip(bounds, bounds[1:]))
    first = rng.choice([1, rng.randrange(1, length), *range(MOST_BYTES - 1, MOST_BYTES + 2)])
    return [start + first, start + rng.randint(first, length)]


# The places, and how many bytes of lines make some 60 pieces of one size, or some 60 records.
WAYS = {f'of {size} byte' + 's' * (size > 1): (by(size), min(60 * size, 40000)) for size in SIZES}
WAYS['of mixed sizes'] = mixed, 20000
WAYS.update({way: (places, 400) for way, places in {
    'cut before newlines': before_newlines, 'cut after newlines': after_newlines, 'cut around newlines': around_newlines,
    'cut inside lines': inside_lines, LAST_LINE: last_line, LONG_LINE: long_line}.items()})


def cut(rng, given, way):
    """The pieces; after the first so many places the rest is one piece."""
    places = sorted(place for place in set(WAYS[way][0](rng, given)) if 0 < place < len(given))[:MOST_PIECES - 1]
    return [given[start:end] for start, end in zip([0, *places], [*places, len(given)])]


def records_pieces(rng, way):
    size = WAYS[way][1]
    text, x = good_text(rng, [few_entries]) if size < 1000 else good_text(rng)
    ending = b'' if way == LAST_LINE else rng.choice([b'', b'\n', b'\n\n'])
    return cut(rng, input_to_cut(rng, text, x, size, way == LONG_LINE, ending), way)


def listing_pieces(rng, way):
    """A text and often more after its line; for the ways that want one, a long text or one over 4,096 bytes."""
    text = good_text(rng, [many_entries if way == 'of 100 bytes' else some_entries])[0]
    if way in ('of 5000 bytes', LONG_LINE):
        text = text.ljust(rng.randint(5001, 12000), b'*')
    after = [b'\n(a'] if 'newlines' in way or way == LAST_LINE else [b'', b'\n', b'\nab\n']
    return cut(rng, text + rng.choice(after), way)


def rooms_pieces(rng, way):
    ending = b'' if way == LAST_LINE else rng.choice([b'', b'\n', b'\n\n'])
    return cut(rng, file_to_cut(rng, WAYS[way][1], way == LONG_LINE, ending), way)
