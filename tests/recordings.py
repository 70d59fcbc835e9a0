"""Records of an expression: words of its language, starts of words, near misses, letters and bytes at random, long ones; and the
inputs of the programs made of them."""
from expressions import LETTERS, MOST_BYTES, letters_of

LONG = 100                 # from here on a star is turned until the wanted length is there


def word(rng, x, wanted):
    """A word of the expression's language; a larger wanted length makes a longer word, where
    there is one, but all inner stars turn only a few times."""
    if isinstance(x, str):
        return x.encode() if x in LETTERS else b''
    if x[0] == '+':
        return word(rng, rng.choice(x[1:]), wanted)
    if x[0] == '*':
        return starred_word(rng, x, wanted)
    wants = [wanted, wanted]
    if wanted >= LONG:
        wants[rng.randrange(2)] = 2
    left, right = word(rng, x[1], wants[0]), word(rng, x[2], wants[1])
    return left + right if x[0] == '.' else shuffled(rng, left, right)


def starred_word(rng, x, wanted):
    while x[0] == '*':         # a star of a star has the same words
        x = x[1]
    if wanted < LONG:
        return b''.join(word(rng, x, wanted // 3) for _ in range(rng.randint(0, min(wanted, 4))))
    out = b''
    for _ in range(wanted + 10):
        if len(out) < wanted:
            out += word(rng, x, rng.choice([0, 1, 3]))
    return out


def shuffled(rng, left, right):
    places = set(rng.sample(range(len(left) + len(right)), len(left)))
    of_left, of_right = iter(left), iter(right)
    return bytes(next(of_left) if i in places else next(of_right) for i in range(len(left) + len(right)))


def near_miss(rng, record, letters):
    record = bytearray(record)
    place = rng.randint(0, len(record))
    byte = rng.choice([ord(rng.choice(letters)), ord(rng.choice(letters)), rng.choice([0, 255, 13, 32, 49])])
    how = rng.randrange(5)
    if how == 0:
        del record[place:place + 1]
    elif how == 1:
        record.insert(place, byte)
    elif how == 2:
        record[place:place + 1] = bytes([byte])
    elif how == 3:
        del record[place:]
    else:
        record[place:place + 2] = record[place:place + 2][::-1]
    return bytes(record)


def long_record(rng, x, letters):
    length = rng.choice([MOST_BYTES - 1, MOST_BYTES, MOST_BYTES, MOST_BYTES + 1, MOST_BYTES + 1,
                         rng.randint(4098, 9000), 3 * MOST_BYTES, rng.randint(9000, 150000)])
    record = word(rng, x, min(length, MOST_BYTES + 1))
    if len(record) < length:
        record += rng.choice(letters).encode() * (length - len(record))
    return record[:length]


def random_record(rng, x, letters):
    how = rng.randrange(20)
    if how < 6:
        return word(rng, x, rng.choice([1, 3, 8, 20, 60]))
    if how < 9:
        member = word(rng, x, rng.choice([3, 8, 20, 60]))
        return member[:rng.randint(0, len(member))]
    if how < 15:
        return near_miss(rng, word(rng, x, rng.choice([3, 8, 20])), letters)
    if how < 18:
        return ''.join(rng.choices(letters, k=rng.randint(1, 8))).encode()
    if how < 19:
        return bytes(rng.choice([0, 255, rng.randrange(256)]) for _ in range(rng.randint(1, 6)))
    return b''


def records_input(rng, text, x, count):
    letters = letters_of(x)
    records = [random_record(rng, x, letters) for _ in range(count)]
    if rng.random() < 0.15:
        records += [long_record(rng, x, letters) for _ in range(rng.randint(1, 3))]
        rng.shuffle(records)
    ending = rng.randrange(40)
    if ending == 0:
        return text                                          # no newline at all
    if ending == 1:
        return text + b'\n'                                  # no record
    lines = [text, *(record.replace(b'\n', b'\0') for record in records)]
    return b'\n'.join(lines) + rng.choice([b'', b'\n', b'\n', b'\n\n'])


def listing_input(rng, text):
    return text + rng.choice([b'', b'\n', b'\n', b'\n\n', b'\nab\n', b'\n(a', b'\n*'])


def short_record(rng, letters):
    return ''.join(rng.choices(letters, k=rng.randint(0, 4))).encode()


def many_records_input(rng, text, x):
    """Over 600 records: short ones in plenty, those of the other inputs, or these with two dozen long ones among them."""
    letters = letters_of(x)
    how = rng.randrange(3)
    if how == 0:
        records = [short_record(rng, letters) for _ in range(rng.randint(3000, 6000))]
    else:
        records = [random_record(rng, x, letters) for _ in range(rng.randint(601, 1500))]
    if how == 2:
        records += [long_record(rng, x, letters) for _ in range(24)]
        rng.shuffle(records)
    return b'\n'.join([text, *(record.replace(b'\n', b'\0') for record in records)]) + rng.choice([b'x', b'\n'])


def input_to_cut(rng, text, x, size, longer, ending):
    """Records until there are so many bytes, with a line of over 4,096 bytes among them if asked for; the last one has a byte."""
    letters = letters_of(x)
    records = []
    while sum(map(len, records)) + len(records) < size:
        records.append(random_record(rng, x, letters))
    if longer:
        records.insert(rng.randint(0, len(records)), letters[0].encode() * rng.randint(MOST_BYTES + 1, 9000))
    lines = [text, *(record.replace(b'\n', b'\0') for record in records), short_record(rng, letters) + letters[0].encode()]
    return b'\n'.join(lines) + ending
