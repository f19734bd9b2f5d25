"""The cases of the replay test: a name, the arguments, the input and, for those that the paper or a count of one's own
settles, the output written down."""
import random


def page(osnma=bytes(5), kind=(0, 0, 1, 0), others=0):
    """A page with its OSNMA field, the bits 0, 1, 120, 121, and its other bits from a number."""
    bits = list(format(others & (1 << 240) - 1, '0240b'))
    for place, value in zip((0, 1, 120, 121), kind):
        bits[place] = str(value)
    bits[138:178] = format(int.from_bytes(osnma, 'big'), '040b')
    return int(''.join(bits), 2).to_bytes(30, 'big')


ZEROS = page()
GOOD = page(b'\0\0\0\0\1')
ALERT = page(kind=(0, 1, 1, 1))
SWAPPED = page(kind=(1, 0, 0, 0))


def flipped(page, place):
    """The page with that bit changed."""
    return (int.from_bytes(page, 'big') ^ 1 << 239 - place).to_bytes(30, 'big')


def subframe(header, block, rng=None):
    """Fifteen pages that carry a DSM block; everything that is not the block is arbitrary where there is a generator."""
    hkroot = bytes([0x92, header]) + block
    noise = (lambda n: rng.getrandbits(n)) if rng else (lambda n: 0)
    return b''.join(page(hkroot[i:i + 1] + noise(32).to_bytes(4, 'big'), others=noise(240)) for i in range(15))


def dsm(dsm_id, code, numbers, rng):
    """The subframes of these blocks of a DSM whose block 0 has that count."""
    blocks = [bytes(rng.randrange(256) for _ in range(13)) for _ in range(16)]
    blocks[0] = bytes([code << 4 | rng.randrange(16)]) + blocks[0][1:]
    return b''.join(subframe(dsm_id << 4 | n, blocks[n], rng) for n in numbers)


def quiet(rng):
    """Fifteen pages with a zero field, but for one byte of it now and then; everything else is arbitrary."""
    fields = [bytearray(5) for _ in range(15)]
    if rng.random() < 0.3:
        rng.choice(fields)[rng.randrange(5)] = 1 << rng.randrange(8)
    return b''.join(page(bytes(field), others=rng.getrandbits(240)) for field in fields)


def between(pages, pieces):
    """The same pages between each two subframes."""
    return pages.join(pieces[at:at + 450] for at in range(0, len(pieces), 450))


def lines(*texts):
    return ''.join(t + '\n' for t in texts).encode()


def named():
    """(name, arguments, input, output or None)"""
    yield from edges()
    yield from silent_ones()
    yield from dsms()


START = ('3', '1200', '60')


def edges():
    yield 'empty', START, b'', lines('pages 0 skipped 0 subframes 0 dsms 0 silent 0 tail 0')
    yield '29 bytes', START, GOOD[:29], lines('pages 0 skipped 0 subframes 0 dsms 0 silent 0 tail 29')
    yield '31 bytes', START, GOOD + GOOD[:1], lines('pages 1 skipped 0 subframes 0 dsms 0 silent 0 tail 1')
    yield '449 bytes', START, (GOOD * 15)[:449], lines('pages 14 skipped 0 subframes 0 dsms 0 silent 0 tail 29')
    yield 'all zeros', START, bytes(450), lines('pages 15 skipped 15 subframes 0 dsms 0 silent 0 tail 0')
    yield 'all ones', START, b'\xff' * 450, lines('pages 15 skipped 15 subframes 0 dsms 0 silent 0 tail 0')
    yield 'a zero byte and a newline as tail', START, b'\0\n', lines('pages 0 skipped 0 subframes 0 dsms 0 silent 0 tail 2')
    yield 'week wraps in the middle', ('36', '1200', '604786'), GOOD * 22, lines(
        'S 36 1201 0', 'pages 22 skipped 0 subframes 1 dsms 0 silent 0 tail 0')
    yield 'week wraps between subframes', ('1', '1200', '604770'), GOOD * 45, lines(
        'S 1 1200 604770', 'S 1 1201 0', 'S 1 1201 30', 'pages 45 skipped 0 subframes 3 dsms 0 silent 0 tail 0')
    yield 'week wraps on an odd second', ('1', '7', '604799'), GOOD * 16, lines(
        'S 1 8 0', 'pages 16 skipped 0 subframes 1 dsms 0 silent 0 tail 0')
    yield '4,095 to 0', ('12', '4095', '604770'), GOOD * 30, lines(
        'S 12 4095 604770', 'S 12 0 0', 'pages 30 skipped 0 subframes 2 dsms 0 silent 0 tail 0')
    yield 'an alert page among good ones', START, GOOD * 5 + ALERT + GOOD * 24, lines(
        'S 3 1200 90', 'pages 30 skipped 1 subframes 1 dsms 0 silent 0 tail 0')
    yield 'fifteen alert pages between', START, GOOD * 15 + ALERT * 15 + GOOD * 15, lines(
        'S 3 1200 60', 'S 3 1200 120', 'pages 45 skipped 15 subframes 2 dsms 0 silent 0 tail 0')
    yield 'odd part first', START, SWAPPED * 15, lines('pages 15 skipped 15 subframes 0 dsms 0 silent 0 tail 0')
    yield 'odd start', ('3', '1200', '61'), GOOD * 15, lines(
        'S 3 1200 60', 'pages 15 skipped 0 subframes 1 dsms 0 silent 0 tail 0')
    yield 'start in the middle of a subframe', ('3', '1200', '75'), GOOD * 23, lines(
        'S 3 1200 90', 'pages 23 skipped 0 subframes 1 dsms 0 silent 0 tail 0')
    yield 'one page too late', ('3', '1200', '62'), GOOD * 15, lines('pages 15 skipped 0 subframes 0 dsms 0 silent 0 tail 0')
    for code in range(16):
        kind = [code >> 3 & 1, code >> 2 & 1, code >> 1 & 1, code & 1]
        yield f'bits 0, 1, 120, 121 are {kind}', START, page(b'\1\0\0\0\0', kind=kind) * 15, None
    yield 'nearly a week', ('36', '4095', '604740'), GOOD * 100, None


def silent_ones():
    rng = random.Random(2)
    yield 'document 02', START, ZEROS * 15, lines('pages 15 skipped 0 subframes 0 dsms 0 silent 1 tail 0')
    yield 'zeros but for the last MACK byte', START, ZEROS * 14 + GOOD, lines(
        'S 3 1200 60', 'pages 15 skipped 0 subframes 1 dsms 0 silent 0 tail 0')
    yield 'fourteen pages with a zero field', START, ZEROS * 14, lines('pages 14 skipped 0 subframes 0 dsms 0 silent 0 tail 0')
    for place in range(137, 179):
        # one set bit in one of fifteen pages: those of the field are bits 138 to 177
        pages = ZEROS * (place % 15) + flipped(ZEROS, place) + ZEROS * (14 - place % 15)
        if 138 <= place < 178:
            right = lines('S 3 1200 60', 'pages 15 skipped 0 subframes 1 dsms 0 silent 0 tail 0')
        else:
            right = lines('pages 15 skipped 0 subframes 0 dsms 0 silent 1 tail 0')
        yield f'zeros but for bit {place} of a page', START, pages, right
    ones = [page(bytes(k) + b'\1' + bytes(4 - k)) for k in range(5)]
    yield 'zeros but for one byte, each of the 75 in turn, silent ones between', START, between(
        ZEROS * 15, b''.join(ZEROS * n + one + ZEROS * (14 - n) for one in ones for n in range(15))), lines(
        *(f'S 3 1200 {60 + 60 * n}' for n in range(75)), 'pages 2235 skipped 0 subframes 75 dsms 0 silent 74 tail 0')
    yield 'everything but the field is arbitrary', START, b''.join(page(others=rng.getrandbits(240)) for _ in range(15)), lines(
        'pages 15 skipped 0 subframes 0 dsms 0 silent 1 tail 0')
    yield 'falls silent and comes back', START, GOOD * 15 + ZEROS * 30 + GOOD * 15, lines(
        'S 3 1200 60', 'S 3 1200 150', 'pages 60 skipped 0 subframes 2 dsms 0 silent 2 tail 0')
    yield 'falls silent within a subframe', START, GOOD * 7 + ZEROS * 16 + GOOD * 7, lines(
        'S 3 1200 60', 'S 3 1200 90', 'pages 30 skipped 0 subframes 2 dsms 0 silent 0 tail 0')
    yield 'a page of a silent subframe lost', START, ZEROS * 5 + ALERT + ZEROS * 24, lines(
        'pages 30 skipped 1 subframes 0 dsms 0 silent 1 tail 0')
    yield 'a page lost, those behind it not zero', START, ZEROS * 5 + ALERT + GOOD * 9 + ZEROS * 15, lines(
        'pages 30 skipped 1 subframes 0 dsms 0 silent 1 tail 0')
    yield 'silent over the end of the weeks', ('36', '4095', '604766'), ZEROS * 50, lines(
        'pages 50 skipped 0 subframes 0 dsms 0 silent 3 tail 0')
    yield 'quiet ones', START, b''.join(quiet(rng) for _ in range(40)), None


def dsms():
    rng = random.Random(8)
    yield 'a DSM of 7 blocks', START, dsm(2, 1, range(7), rng), lines(
        *(f'S 3 1200 {60 + 30 * n}' for n in range(7)), 'D 2 91', 'pages 105 skipped 0 subframes 7 dsms 1 silent 0 tail 0')
    yield 'a DSM of 16 blocks', START, dsm(12, 10, range(16), rng), lines(
        *(f'S 3 1200 {60 + 30 * n}' for n in range(16)), 'D 12 208', 'pages 240 skipped 0 subframes 16 dsms 1 silent 0 tail 0')
    yield 'a DSM of 13 blocks, from the last to the first', ('9', '0', '0'), dsm(15, 7, range(12, -1, -1), rng), lines(
        *(f'S 9 0 {30 * n}' for n in range(13)), 'D 15 169', 'pages 195 skipped 0 subframes 13 dsms 1 silent 0 tail 0')
    # passed on, zeros would be block 0 of ID 0, with a count that never completes
    yield 'a DSM across silent subframes', START, between(ZEROS * 15, dsm(2, 1, range(7), rng)), lines(
        *(f'S 3 1200 {60 + 60 * n}' for n in range(7)), 'D 2 91', 'pages 195 skipped 0 subframes 7 dsms 1 silent 6 tail 0')
    yield 'a DSM of ID 0 after a silent subframe', START, ZEROS * 15 + dsm(0, 1, range(7), rng), lines(
        *(f'S 3 1200 {90 + 30 * n}' for n in range(7)), 'D 0 91', 'pages 120 skipped 0 subframes 7 dsms 1 silent 1 tail 0')
    yield 'blocks again after silent ones', START, between(ZEROS * 15, dsm(4, 1, list(range(7)) * 2, rng)), None
    yield 'every count of a KROOT', START, b''.join(dsm(code % 12, code, range(16), rng) for code in range(16)), None
    yield 'every count of a PKR', START, b''.join(dsm(12 + code % 4, code, range(16), rng) for code in range(16)), None
    yield 'blocks again after done', START, dsm(4, 1, list(range(16)) * 2, rng), None
    yield 'two DSMs in turn', START, dsm(4, 1, range(7), rng) + dsm(5, 2, range(8), rng) + dsm(4, 1, range(7), rng), None
    yield 'two DSMs mixed', START, b''.join(dsm(i, 1, [n], rng) for n in range(7) for i in (6, 7)), None
    yield 'a block too few, then another DSM', START, dsm(4, 1, range(6), rng) + dsm(5, 1, [6], rng) + dsm(4, 1, [6], rng), None
    yield 'seven blocks that are not the counted ones', START, dsm(4, 1, [0, 2, 3, 4, 5, 6, 7, 8, 1], rng), None
    yield 'block 0 again with another count', START, dsm(4, 2, [0], rng) + dsm(4, 1, [0, 1, 2, 3, 4, 5, 6], rng) + dsm(4, 1, [7], rng), None
    yield 'a block lost to an alert page', START, (
        dsm(4, 1, range(3), rng) + dsm(4, 1, [3], rng)[:-60] + ALERT + GOOD + dsm(4, 1, [4, 5, 6, 3], rng)), None


def long_file(pages, seed):
    """A file with everything in it: DSMs that complete, silence, losses, alert pages, and a tail."""
    rng = random.Random(seed)
    ready, parts, made = {}, [], 0
    while made < pages:
        key = (rng.randrange(16), rng.randrange(1, 11))
        if key not in ready:
            ready[key] = [dsm(key[0], key[1], [n], rng) for n in range(16)]
        for n in range(rng.choice([7, 13, 16])):
            piece = ready[key][n]
            chance = rng.random()
            if chance < 0.02:
                place = 30 * rng.randrange(15)
                piece = piece[:place] + rng.choice([ALERT, SWAPPED, bytes(30)]) + piece[place + 30:]
            elif chance < 0.03:
                piece = piece[:30 * rng.randrange(15)]
            elif chance < 0.13:
                piece = quiet(rng) * rng.choice([1, 2]) + piece
            parts.append(piece)
            made += len(piece) // 30
        if rng.random() < 0.3:
            # what a loss shifted begins with a subframe again
            parts.append(ALERT * (-made % 15))
            made += -made % 15
    return b''.join(parts)[:30 * pages] + GOOD[:rng.randrange(30)]


def random_file(rng):
    """Arguments and a small file, around every edge at once."""
    time = rng.choice([0, 1, 2, 28, 29, 30, 59, 60, 604739, 604770, 604786, 604798, 604799, rng.randrange(604800)])
    week = rng.choice([0, 1, 1200, 4094, 4095, rng.randrange(4096)])
    words = (str(rng.randrange(1, 37)), str(week), str(time))
    size = rng.randrange(400)
    data = long_file(size, rng.random()) if rng.random() < 0.7 else bytes(rng.randrange(256) for _ in range(30 * (size % 40)))
    if rng.random() < 0.5:
        data = data[30 * rng.randrange(15):]
    return words, data


def wrong_arguments():
    """(arguments, the refusal number or None for none)"""
    zeros = '0' * 100000
    yield (), 7
    yield ('3',), 7
    yield ('3', '1200'), 7
    yield ('3', '1200', '60', '0'), 7
    yield ('3', '1200', '60', ''), 7
    yield ('3', '1200', '60') * 40, 7
    for bad in ['', ' ', '+3', '-3', '3 ', ' 3', '3\n', '0x3', '3a', 'a', '3.0', '3,0', '1e1', '٣', '\x7f', '/', ':', '3/', '3:', '--help', '0b11', '１']:
        yield (bad, '1200', '60'), 7
        yield ('3', bad, '60'), 7
        yield ('3', '1200', bad), 7
    yield ('0', '1200', ''), 7
    yield ('37', '4096', 'x'), 7
    yield ('37', '-', '604800'), 7
    yield ('', '4096', '604800'), 7
    for big in ['37', '255', '256', '257', '259', '65536', '65539', '4294967299', str(2**64 - 1), str(2**64), str(2**64 + 3), str(2**65 + 3),
                str(10**19 + 3), str(10**20), '9' * 1000, '1' + '0' * 100000, '3' + zeros]:
        yield (big, '1200', '60'), 2
    for zero in ['0', '00', zeros]:
        yield (zero, '4096', '604800'), 2
    for big in ['4096', '65536', '65537', '66736', str(2**32), str(2**64), str(2**64 + 1200), '1' + zeros]:
        yield ('3', big, '604800'), 3
    for big in ['604800', str(2**32), str(2**32 + 60), str(2**64), str(2**64 + 60), '9' * 100000]:
        yield ('3', '1200', big), 4
    yield ('36', '4095', '604799'), None
    yield ('1', '0', '0'), None
    yield (zeros + '3', '0001200', '00060'), None
    yield ('3', zeros + '1200', zeros + '60'), None
    yield ('0' * 131070 + '3', '0' * 131067 + '1200', '0' * 131069 + '60'), None
