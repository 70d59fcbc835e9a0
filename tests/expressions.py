"""Expressions and texts to try the programs on: random ones of several kinds, damaged ones, and those at the limits of 01.

An expression is a leaf of one character, a star ('*', x), or a sign's expression (sign, x, y).
"""
import sys

MOST_BYTES = 4096          # of a text and of a record line
LETTERS = [chr(c) for c in [*range(ord('a'), ord('z') + 1), *range(ord('A'), ord('Z') + 1)]]
NEIGHBOURS = b'@[`{/2)(+.&*01 \t\r\0\x7f\x80\xc3\xff,-~'   # of the letters and signs, and others

sys.setrecursionlimit(10000)   # 512 stars are 512 calls deep


def star(x, times=1):
    for _ in range(times):
        x = ('*', x)
    return x


def nest(sign, items, shape):
    """The items joined by one sign: a 'left', 'right' or 'balanced' nest."""
    if len(items) == 1:
        return items[0]
    cut = {'left': len(items) - 1, 'right': 1, 'balanced': len(items) // 2}[shape]
    return (sign, nest(sign, items[:cut], shape), nest(sign, items[cut:], shape))


def written(x):
    if isinstance(x, str):
        return x
    if x[0] == '*':
        return written(x[1]) + '*'
    return '(' + written(x[1]) + x[0] + written(x[2]) + ')'


def letters_of(x):
    return sorted(set(c for c in written(x) if c in LETTERS)) or ['a']


# Texts.

def random_expression(rng, entries, style):
    """An expression of that many entries."""
    if entries == 1:
        return '1' if rng.random() < style['ones'] else rng.choice(style['letters'])
    if entries == 2 or rng.random() < style['stars']:
        return star(random_expression(rng, entries - 1, style))
    if style['even']:
        of_left = max(1, min(entries - 2, (entries - 1) // 2 + rng.randint(-3, 3)))
    else:
        of_left = rng.randint(1, entries - 2)
    if of_left % 2 == 0 and rng.random() >= style['stars']:
        of_left -= 1           # an even number of entries has a star somewhere
    return (rng.choice(style['signs']), random_expression(rng, of_left, style),
            random_expression(rng, entries - 1 - of_left, style))


def random_style(rng, signs='+.&'):
    return {'letters': rng.sample(LETTERS, rng.choice([1, 2, 3, 4, 6, 10, 52])),
            'ones': rng.choice([0, 0, 0, 0.1, 0.3]), 'stars': rng.choice([0, 0, 0.05, 0.1, 0.3]),
            'signs': rng.choice([signs, signs, '+..' + signs, '+.', '&' + signs]), 'even': rng.random() < 0.4}


def few_entries(rng):
    return random_expression(rng, rng.randint(1, 16), random_style(rng))


def some_entries(rng):
    return random_expression(rng, rng.randint(12, 50), random_style(rng, '++..&'))


def many_entries(rng):
    style = random_style(rng, '+' * 20 + '.' * 20 + '&')
    style.update(even=rng.random() < 0.8, stars=rng.choice([0, 0.05, 0.1]))
    return random_expression(rng, rng.choice([rng.randint(60, 200), rng.randint(200, 520)]), style)


def long_nest(rng):
    """One sign over many alike items, often past a room."""
    item = rng.choice([lambda c: c, lambda c: c, star, lambda c: ('+', c, '1'),
                       lambda c: ('+', '1', c), lambda c: ('.', c, c), lambda c: ('&', c, '1'),
                       lambda c: ('.', c, star('a')), lambda c: star(('.', c, 'b'))])
    sign = rng.choice('+.&')
    count = rng.randint(2, 12) if sign == '&' else rng.choice([rng.randint(2, 66), rng.randint(60, 130)])
    letters = rng.sample(LETTERS, rng.choice([1, 2, 3, 52]))
    shape = rng.choice(['left', 'right', 'balanced'])
    whole = nest(sign, [item(letters[i % len(letters)]) for i in range(count)], shape)
    return star(whole, rng.choice([0, 0, 1, 1, 2, 5, 50]))


def star_nest(rng):
    """Stars over stars: few states, many expressions."""
    inner = random_expression(rng, rng.randint(1, 7), random_style(rng))
    whole = star(inner, rng.choice([rng.randint(2, 20), rng.randint(100, 400), rng.randint(300, 515)]))
    return whole if rng.random() < 0.6 else (rng.choice('+.&'), whole, rng.choice(['1', 'a', 'b', star('c')]))


def follow_all(letter_count, pair_count, more=()):
    """Every pair may follow every other: few states, many arcs."""
    pairs = []
    for i in range(pair_count):
        second = i % letter_count
        first = (second + 1 + i // letter_count) % len(LETTERS)
        pairs.append(('.', LETTERS[first], star(LETTERS[second])))
    whole = star(nest('+', pairs, 'balanced'))
    return ('+', whole, nest('+', list(more), 'right')) if more else whole


def many_arcs(rng):
    return follow_all(rng.randint(30, 52), rng.randint(60, 100), rng.sample(LETTERS, rng.randint(0, 4)))


def shuffled_parts(rng):
    """Small expressions shuffled, where the joining with the empty word counts."""
    parts = [random_expression(rng, rng.randint(1, 6), random_style(rng)) for _ in range(rng.randint(2, 4))]
    whole = nest('&', parts, rng.choice(['left', 'right', 'balanced']))
    return rng.choice([whole, star(whole), ('.', whole, '1'), ('.', '1', whole), ('&', whole, '1'), ('&', '1', whole)])


def damaged(rng, text):
    """A byte dropped, added or changed, or the text cut short; once or more."""
    text = bytearray(text)
    for _ in range(rng.choice([1, 1, 1, 2, 3])):
        place = rng.randint(0, len(text))
        byte = rng.choice([rng.choice(NEIGHBOURS), rng.choice(b'()+.&*01ab'), rng.randrange(256)])
        how = rng.randrange(5)
        if how == 0:
            del text[place:place + 1]
        elif how == 1:
            text.insert(place, byte)
        elif how == 2:
            text[place:place + 1] = bytes([byte])
        elif how == 3:
            del text[place:]
        else:
            text[place:place] = text[max(0, place - rng.randint(1, 9)):place]
    return bytes(text).replace(b'\n', b'')


KINDS = [few_entries] * 6 + [some_entries] * 6 + [shuffled_parts] * 4 + [long_nest] * 4 + [many_entries] * 2 \
    + [star_nest, many_arcs]


def random_text(rng):
    """A text and the expression whose words its records are made from."""
    expression = rng.choice(KINDS)(rng)
    text = written(expression).encode()
    return (damaged(rng, text) if rng.random() < 0.2 else text), expression


def good_text(rng, kinds=(few_entries, some_entries, shuffled_parts)):
    """A text as it was written, of few enough entries that it is seldom refused, and its expression."""
    expression = rng.choice(kinds)(rng)
    return written(expression).encode(), expression


def limit_texts():
    """Texts at the limits of 01 and just past them, each with an expression for its records."""
    for text in ['', '0', '1', 'a', 'Z', '0*', '00', '01', '(0.a)', '(a.0)', '(a)', '()', '(', ')', '*', 'a*b', 'ab',
                 '(a&b&c)', '(a+b', '(a+', '(a', '(a+b))', '((a+b)', 'a ', ' a', 'a\r', '(a|b)', '(a&b)*', '1*',
                 '(1&a)', '(a&1)', '(1.a)', '(a.1)', '(1+a)', '(1&1)', '(1.1)', '(1+1)', '((1&a).(1&b))', '1**',
                 '((a&1)&b)', '(a*.(1.b))', '((a.1)&(1.b))*', '((a+1)&(b+1))*', '((a.b)&(c.d))', '(a&a)']:
        yield text, 'a'
    for length in [MOST_BYTES - 1, MOST_BYTES, MOST_BYTES + 1, 3 * MOST_BYTES, 1 << 20]:
        yield 'a'.ljust(length, '*'), 'a'
        for unit in ['a', '(', '(a+', '1']:
            yield (unit * length)[:length], 'a'
    for times in [510, 511, 512]:
        yield from wholly(star('a', times), star('1', times), star(('.', 'a', 'b'), times - 2),
                          ('+', star('a', times - 3), 'b'))
    for depth in [63, 64, 65]:
        for sign in '+.&':
            for shape in ['left', 'right']:
                for letters in ['a', 'ab', LETTERS]:
                    items = [letters[i % len(letters)] for i in range(depth + 1)]
                    yield from wholly(nest(sign, items, shape), nest(sign, [star(c) for c in items], shape))
    for sign in '+.&':
        for letters in ['a', LETTERS, '1']:
            whole = nest(sign, [letters[i % len(letters)] for i in range(256)], 'balanced')
            for stars in [0, 1, 2]:                       # 511, 512 and 513 entries
                yield from wholly(star(whole, stars), ('+', whole, star('a', stars)))
    for count in range(7, 13):                            # 9 letters need all 512 states
        for shape in ['left', 'right', 'balanced']:
            yield from wholly(nest('&', LETTERS[:count], shape), nest('&', [star(c) for c in LETTERS[:count]], shape))
    all_states = nest('&', LETTERS[:9], 'left')
    yield from wholly(('+', all_states, 'z'), ('+', all_states, ('.', 'z', 'y')))       # 512 and 513 states
    yield from wholly(nest('&', LETTERS[:40], 'balanced'), star(nest('&', LETTERS, 'balanced')))
    for times in [339, 340, 341]:                         # 1,023 expressions with 340 stars
        whole = star(('.', 'a', 'b'), times)
        yield from wholly(whole, ('+', whole, '1'), ('+', whole, 'c'))
    for more in range(5):                                 # 4,096 arcs with two letters more
        yield from wholly(follow_all(44, 90, LETTERS[:more]))
    for count in [63, 64, 89, 90, 91, 128]:
        yield from wholly(nest('.', [star(LETTERS[i % 52]) for i in range(count)], 'balanced'))


def wholly(*expressions):
    return [(written(x), x) for x in expressions]
