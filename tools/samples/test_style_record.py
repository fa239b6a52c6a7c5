#!/usr/bin/env python3
"""Writes what crates/test_style_record must print: `python3 tools/samples/test_style_record.py > crates/test_style_record/stdout`.

The rules stand here a second time, as sets of words that are allowed, read from document 01 and from nothing of the crates;
table and replaced words are those of the program."""

ANY = None
AUTO, PLAIN = {1, 3, 5, 129}, {1, 5, 129}
SIZE = AUTO | {11, 15, 27, 35, 43, 59, 75}
FIELDS = [AUTO] * 8 + [PLAIN] * 8 + [SIZE] * 6
ALLOWED = [s for tags in FIELDS for s in (tags, ANY, ANY)]
CODES_AT = len(ALLOWED)
ALLOWED += [{0, 1}, ANY, {0, 1}, {0, 1, 2, 3}, {0, 1}]
ALLOWED += [set(range(11)), {0, 1, 2}] * 2
ALLOWED += [{0, 1, 2, 3}, {0, 1, 2, 3}, ANY, set(range(256))]
WORDS = len(ALLOWED)
assert (CODES_AT, WORDS) == (66, 79)
RATIO_PRESENT, RATIO, JUSTIFY, JUSTIFY_SAFETY, ALIGN, ALIGN_SAFETY, CONTAIN = 66, 67, 71, 72, 73, 74, 78
PADDING_AT, SIZE_AT = 3 * 8, 3 * 16
INSET_VALUE, INSET_RIGHT, PADDING_TOP = 1, 3 * 1, 3 * 10

CODES = [0, 1, 2, 3, 4, 5, 6, 7, 9, 10, 11, 12, 15, 27, 59, 75, 76, 128, 129, 130, 255, 256, 257, 259, 261, 385, 2147483653, 4294967295]
TAGS = [1, 5, 129, 3, 11, 15, 27, 35, 43, 59, 75]
COUNTS = [2, 2**32, 2, 4, 2, 11, 3, 11, 3, 4, 4, 2**32, 256]


def answer(table):
    for item in range(len(table) // WORDS):
        words = table[WORDS * item:WORDS * item + WORDS]
        for k, (word, allowed) in enumerate(zip(words, ALLOWED)):
            ignored = k in (JUSTIFY_SAFETY, ALIGN_SAFETY) and words[k - 1] == 10
            if allowed is not ANY and not ignored and word not in allowed:
                return f" {item}:{k}"
    return " -"


def sample(k, d):
    if k >= CODES_AT:
        return d // 65536 % COUNTS[k - CODES_AT]
    if k % 3 != 0:
        return d
    return TAGS[d // 65536 % (4 if k < PADDING_AT else 3 if k < SIZE_AT else 11)]


table, state = [], 7
for i in range(WORDS * 1024):
    state = (state * 1664525 + 1013904223) % 2**32
    table.append(sample(i % WORDS, state))


def changed(*words):
    other = list(table)
    for place, word in words:
        other[place] = word
    return answer(other)


def row(k, other, code):
    out = ""
    for j, c in enumerate(CODES):
        item = (len(CODES) * k + j) * 37 % 1024
        out += changed((WORDS * item + other, code), (WORDS * item + k, c))
    return out


print(answer(table))
for k in range(WORDS):
    print(row(k, INSET_VALUE, 4290772993))
print(row(JUSTIFY_SAFETY, JUSTIFY, 10))
print(row(ALIGN_SAFETY, ALIGN, 10))
print(row(JUSTIFY_SAFETY, JUSTIFY, 11))
print(row(PADDING_TOP, CONTAIN, 256))
print(row(CONTAIN, PADDING_TOP, 3))
pair = (WORDS * 900 + INSET_RIGHT, 0), (WORDS * 30 + CONTAIN, 256)
print(changed(*pair) + changed(*pair[::-1]))
print(changed((WORDS, 2)) + changed((JUSTIFY_SAFETY, 3), (JUSTIFY, 9)) + changed((RATIO_PRESENT, 1), (RATIO, 0x7FC00000)) + changed((CONTAIN, 256), (WORDS, 2)))
last = WORDS * 1023
table[last] = 2
print(answer(table[:WORDS] + [2]) + "".join(answer(table[:n]) for n in (WORDS * 1024, WORDS * 1024 - 1, last + 1, WORDS - 1, 0)))
