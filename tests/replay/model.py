"""What document 01, "Page replay", and request 2 of document 02 say that the program writes, from their words and nothing of the
port.

The switches of `Reading` are wrong readings: the test holds its own cases to telling each of them from the right one. A replay
brings each word of a subframe once, so that what differs on repeated words alone is left to tests/differential.
"""
import re
import sys

if hasattr(sys, 'set_int_max_str_digits'):
    sys.set_int_max_str_digits(0)

KROOT_BLOCKS = {code: code + 6 for code in range(1, 9)}
PKR_BLOCKS = {code: code + 6 for code in range(7, 11)}


class Reading:
    """How the paper is read; each switch is off for the right reading."""
    WRONG = ['time_stands_on_skip', 'skip_not_counted', 'alert_counts', 'any_page_counts', 'odd_first', 'osnma_one_bit_early', 'week_stays',
             'week_4096', 'time_of_the_page', 'latest_copy', 'as_many_as_the_count', 'never_forgets', 'id_kept', 'kroot_counts_of_pkr', 'only_first_subframe',
             'done_forgotten', 'tail_is_a_page', 'no_tail', 'dsm_first', 'bytes_are_blocks', 'range_first',
             'satellite_zero', 'wraps_at_64_bits', 'empty_is_zero', 'signs',
             'silent_by_hkroot_alone', 'silent_by_mack_alone', 'silent_but_for_the_last_byte', 'silent_by_the_last_page', 'never_silent', 'always_silent',
             'silent_before_the_last_page', 'silent_whatever_the_count', 'zeros_not_written', 'silent_is_nothing', 'silent_in_both_counts', 'silent_has_a_line',
             'silent_passed_on', 'silent_cuts_the_dsm', 'silent_is_skipped']

    def __init__(self, wrong=None):
        assert wrong is None or wrong in self.WRONG
        for name in self.WRONG:
            setattr(self, name, name == wrong)


def bit(page, i):
    return page[i // 8] >> (7 - i % 8) & 1


def arguments(words, reading=Reading()):
    """The three numbers, or the refusal number."""
    digits = rb'[+-]?[0-9]+' if reading.signs else rb'[0-9]*' if reading.empty_is_zero else rb'[0-9]+'
    decimal = [bool(re.fullmatch(digits, w)) for w in words]
    if len(words) != 3 or not all(decimal) and not reading.range_first:
        return 7
    numbers = [int(w or b'0') if d else 0 for w, d in zip(words, decimal)]
    if reading.wraps_at_64_bits:
        numbers = [n % 2**64 for n in numbers]
    satellite, week, time = numbers
    if not (0 if reading.satellite_zero else 1) <= satellite <= 36:
        return 2
    if week > 4095:
        return 3
    if time > 604799:
        return 4
    return tuple(numbers) if all(decimal) else 7


class Dsm:
    """A DSM from its blocks."""

    def __init__(self, reading):
        self.reading, self.id, self.held, self.done = reading, None, {}, False

    def feed(self, header, block):
        """The ID and the length in bytes, where the DSM completes."""
        dsm_id, number = header >> 4, header & 15
        if self.id != dsm_id and not (self.reading.id_kept and self.id is not None):
            if not self.reading.never_forgets:
                self.held = {}
            if not self.reading.done_forgotten:
                self.done = False
            self.id = dsm_id
        if self.done:
            return None
        if number not in self.held or self.reading.latest_copy:
            self.held[number] = block
        if 0 not in self.held:
            return None
        pkr = self.id >= 12 and not self.reading.kroot_counts_of_pkr
        count = (PKR_BLOCKS if pkr else KROOT_BLOCKS).get(self.held[0][0] >> 4)
        if count is None:
            return None
        if self.reading.as_many_as_the_count:
            whole = len(self.held) >= count
        else:
            whole = all(n in self.held for n in range(count))
        if not whole:
            return None
        self.done = True
        return self.id, count if self.reading.bytes_are_blocks else 13 * count


class Pair:
    """A satellite's 15 HKROOT and 60 MACK bytes from its pages."""

    def __init__(self, reading):
        self.reading, self.run, self.count, self.fields = reading, None, 0, [bytes(5)] * 15

    def feed(self, week, time, osnma):
        """Whether the pair comes out, and whether it is silent."""
        if self.run != (week, time // 30):
            self.run, self.count = (week, time // 30), 0
        word, before = time // 2 % 15, list(self.fields)
        used = word == self.count
        if used:
            self.count += 1
            if any(osnma) or not self.reading.zeros_not_written:
                self.fields[word] = osnma
        out = used and self.count == 15
        asked = word == 14 if self.reading.silent_whatever_the_count else out
        return out, asked and self.is_silent(before)

    def hkroot(self):
        return bytes(field[0] for field in self.fields)

    def is_silent(self, before):
        """Whether the 75 bytes are all zero; `before` are those that were there before the page."""
        wrong = self.reading
        fields = before if wrong.silent_before_the_last_page else self.fields
        looked_at = b''.join(field[:1] for field in fields if not wrong.silent_by_mack_alone)
        looked_at += b''.join(field[1:] for field in fields if not wrong.silent_by_hkroot_alone)
        if wrong.silent_but_for_the_last_byte:
            looked_at = looked_at[:-1]
        if wrong.silent_by_the_last_page:
            looked_at = fields[14]
        return not wrong.never_silent and (wrong.always_silent or not any(looked_at))


class Replay:
    """A replay of one satellite's pages: its lines, and the totals in the order of the last line."""

    def __init__(self, satellite, week, time, reading):
        self.satellite, self.week, self.time, self.reading = satellite, week, time, reading
        self.pair, self.dsm, self.out = Pair(reading), Dsm(reading), []
        self.totals = dict.fromkeys(['pages', 'skipped', 'subframes', 'dsms', 'silent', 'tail'], 0)

    def counts(self, page):
        kind = [bit(page, i) for i in (0, 1, 120, 121)]
        right = [1, 0, 0, 0] if self.reading.odd_first else [0, 0, 1, 0]
        return kind == right or self.reading.any_page_counts or self.reading.alert_counts and kind == [0, 1, 1, 1]

    def complete(self, line=True):
        """A pair is handed on: its S line, and its block to the DSM collector."""
        time = self.time if self.reading.time_of_the_page else self.time // 30 * 30
        lines = [b'S %d %d %d\n' % (self.satellite, self.week, time)] if line else []
        hkroot = self.pair.hkroot()
        done = self.dsm.feed(hkroot[1], hkroot[2:])
        if done:
            self.totals['dsms'] += 1
            lines.append(b'D %d %d\n' % done)
        self.out += lines[::-1] if self.reading.dsm_first else lines

    def silent(self):
        wrong = self.reading
        self.totals['silent'] += not wrong.silent_is_nothing
        self.totals['subframes'] += wrong.silent_in_both_counts
        self.totals['skipped'] += 15 * wrong.silent_is_skipped
        if wrong.silent_has_a_line:
            self.out.append(b'S %d %d %d\n' % (self.satellite, self.week, self.time // 30 * 30))
        if wrong.silent_passed_on:
            self.complete(line=False)
        if wrong.silent_cuts_the_dsm:
            self.dsm = Dsm(wrong)

    def take(self, page):
        """A page that counts."""
        first = 137 if self.reading.osnma_one_bit_early else 138
        osnma = int.from_bytes(page, 'big') >> (240 - first - 40) & (1 << 40) - 1
        out, silent = self.pair.feed(self.week, self.time, osnma.to_bytes(5, 'big'))
        if silent:
            self.silent()
        elif out and not (self.reading.only_first_subframe and self.totals['subframes']):
            self.totals['subframes'] += 1
            self.complete()

    def pass_time(self):
        self.time += 2
        if self.time >= 604800:
            self.time -= 604800
            if not self.reading.week_stays:
                self.week = self.week + 1 if self.reading.week_4096 else (self.week + 1) % 4096

    def page(self, page):
        self.totals['pages'] += 1
        counts = self.counts(page)
        if counts:
            self.take(page)
        else:
            self.totals['skipped'] += not self.reading.skip_not_counted
        if counts or not self.reading.time_stands_on_skip:
            self.pass_time()


def replay(words, data, reading=Reading()):
    """What the program writes, for these arguments and this input."""
    asked = arguments(words, reading)
    if isinstance(asked, int):
        return b'refused %d\n' % asked
    run = Replay(*asked, reading)
    whole = len(data) // 30 * 30
    for at in range(0, whole, 30):
        run.page(data[at:at + 30])
    run.totals['tail'] = 0 if reading.no_tail else len(data) - whole
    run.totals['pages'] += reading.tail_is_a_page and run.totals['tail'] > 0
    last = ' '.join(f'{name} {number}' for name, number in run.totals.items())
    return b''.join(run.out) + last.encode() + b'\n'
