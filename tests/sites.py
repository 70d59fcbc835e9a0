"""Files of site expressions for the program rooms, and what an answer to one must be by itself: as many lines as the file has,
then the sums of these lines."""
import re

from expressions import LETTERS, MOST_BYTES, damaged, few_entries, good_text, nest, random_expression, random_style
from expressions import random_text, written

MOST_LINES = 100000
FEW_LETTERS = 10           # of a line that counts in the last two sums
TOO_MANY = b'refused 22 0'
LENGTHS = [MOST_BYTES - 1, MOST_BYTES, MOST_BYTES + 1, 10000]
NUMBER = rb'(0|[1-9]\d*)'
ANSWER = re.compile(b' '.join([NUMBER] * 5) + rb'|refused (?:9|12|13|14|15) ' + NUMBER)


# Lines and files.

def odd_line(rng):
    """No byte, any bytes, or a text filled up before or behind to a length next to the most bytes or past it."""
    how = rng.randrange(4)
    if how == 0:
        return b''
    if how == 1:
        return rng.randbytes(rng.randint(1, 30)).replace(b'\n', b'\0')
    text = good_text(rng)[0]
    fill, length = rng.choice([b'*', b' ', b'(', b'a', b'\0', b'\xff']), rng.choice(LENGTHS)
    return text.ljust(length, fill) if how == 2 else text.rjust(length, fill)


def mixed_file(rng, texts):
    """The given texts among random ones, good and damaged, and odd lines."""
    lines = [*texts, *(random_text(rng)[0] for _ in range(40)), *(odd_line(rng) for _ in range(12))]
    rng.shuffle(lines)
    return b'\n'.join(lines) + rng.choice([b'', b'\n', b'\n', b'\n\n'])


def short_line(rng):
    """A text of a few bytes, good or damaged."""
    text = written(random_expression(rng, rng.randint(1, 6), random_style(rng))).encode()
    return damaged(rng, text) if rng.random() < 0.4 else text


def large_file(rng, count, ending):
    """So many lines, drawn from some short ones, and the ending after the last of them, which has a byte."""
    some = [short_line(rng) for _ in range(200)]
    return b'\n'.join([*rng.choices(some, k=count - 1), b'a']) + ending


def file_to_cut(rng, size, longer, ending):
    """Lines until there are so many bytes, with one of over 4,096 bytes among them if asked for; the last one has a byte."""
    lines = []
    while size > 0:
        lines.append(rng.choice([short_line(rng), good_text(rng, [few_entries])[0]]))
        size -= len(lines[-1]) + 1
    if longer:
        lines.insert(rng.randint(0, len(lines)), good_text(rng)[0].ljust(rng.randint(MOST_BYTES + 1, 9000), b'*'))
    return b'\n'.join([*lines, b'(a&b)']) + ending


# Lines and ending of a large file: next to the most lines with and without a last newline; a line too many that is empty or
# long; many too many.
LARGE = [(MOST_LINES - 1, b'\n'), (MOST_LINES, b'\n'), (MOST_LINES, b''), (MOST_LINES + 1, b'\n'), (MOST_LINES + 1, b''),
         (MOST_LINES, b'\n\n'), (MOST_LINES, b'\n'.ljust(5000, b'a')), (MOST_LINES * 3 // 2, b'\n')]


def written_files():
    """Files of no line and of one or two, of a long line alone and among others, of every byte, of up to 12 letters a line."""
    yield from [b'', b'\n', b'\n\n', b'a', b'a\n', b'a\n\n', b'\na', b'\r\n', b'\0']
    for line in [b'a' * length for length in LENGTHS]:
        yield from [line, line + b'\n', line + b'\n\n', b'(a&b)\n' + line + b'\n(a.b)']
    for before, after in [(b'', b''), (b'(a&', b')'), (b'a', b'')]:
        yield b'\n'.join(before + bytes([byte]) + after for byte in range(256))
    yield '\n'.join(written(nest(sign, LETTERS[:count], 'left')) for count in range(1, 13) for sign in '+.&').encode()


# An answer by itself.

def wanted_totals(answers):
    """The lines built, the sum of their states and, over those with at most 10 letters alone, of 2^letters and of states."""
    rows = [[int(number) for number in answer.groups()[:5]] for answer in answers if answer[1]]
    few = [row for row in rows if row[1] <= FEW_LETTERS]
    sums = [len(rows), sum(row[2] for row in rows), sum(2 ** row[1] for row in few), sum(row[2] for row in few)]
    return ' '.join(map(str, sums)).encode()


def misreported(given, printed):
    """What is wrong with what was printed on a file, or nothing."""
    *said, last = printed.split(b'\n')[:-1] or [b'']
    lines = given.count(b'\n') + (given[-1:] not in (b'', b'\n'))
    if len(said) != min(lines, MOST_LINES):
        return f'gave {len(said)} answers to {lines} lines'
    answers = [ANSWER.fullmatch(line) for line in said]
    if None in answers:
        return f'gave as an answer {said[answers.index(None)]!r}'
    wanted = TOO_MANY if lines > MOST_LINES else wanted_totals(answers)
    return '' if last == wanted else f'ended with {last!r} where the lines before give {wanted!r}'
