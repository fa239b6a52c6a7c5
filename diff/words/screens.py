#!/usr/bin/env python3
"""Holds tools/explain-screen to the C entry `oof_first_bad_word`, on stored screens and on damaged ones. WORDS is the program of words.rs
(`run.sh` builds it).

    diff/words/screens.py WORDS SEED COUNT

The words of a screen's items go to the entry as they stand. What it names must be what explain-screen finds first, and what its last line
says of a screen that is refused with 3. Texts that are no screen have no words and are left out. Stops at the first difference."""
import contextlib
import functools
import io
import pathlib
import random
import runpy
import struct
import subprocess
import sys
import types

root = pathlib.Path(__file__).resolve().parent.parent.parent
run_screens = types.SimpleNamespace(**runpy.run_path(str(root / "tools/run-screens")))
explain = run_screens.explain
fail = functools.partial(run_screens.fail, part="diff/words")

WIDTH = explain.WIDTH
# bytes of a line, with its line feed
FIRST_LINE, ITEM_LINE = (WIDTH * len(fields) + 1 for fields in (explain.FIRST, explain.ITEM))
NUMBERS = [*range(13), 15, 27, 35, 43, 59, 75, 76, 128, 129, 129, 130, 255, 256, 257, 259, 261, 266, 385, 65537, 2147483653, 4294967295]


def replaced(r, text):
    """Up to three style words of the items replaced, floats by numbers that are no line's fault."""
    n = int(text[WIDTH * explain.ITEM_COUNT:][:WIDTH])
    for _ in range(r.randrange(4) if n else 0):
        k = r.randrange(len(explain.STYLE))
        at = FIRST_LINE + ITEM_LINE * r.randrange(n) + WIDTH * k
        number = r.randrange(-99, 9999) if explain.STYLE[k].is_float else r.choice(NUMBERS)
        text = text[:at] + b"%*d" % (WIDTH, number) + text[at + WIDTH:]
    return text


def style_words(numbers):
    """An item's style as the library is lent it: floats by their bits."""
    bits = lambda n: struct.unpack("<I", struct.pack("<f", n / 8))[0]
    return [bits(n) if field.is_float else n for field, n in zip(explain.STYLE, numbers)]


def explained(text):
    """The table of a screen, and what is said of it: the first bad word, or a dash. None if the text is no screen."""
    explainer = explain.Explainer(True)
    explainer.explain(text)
    refusals = {refusal for refusal, _ in explainer.faults}
    if explain.BAD_LINE in refusals:
        return None
    named = "%d %d" % explainer.bad_words[0] if explainer.bad_words else "-"
    if (named == "-") == (explain.BAD_STYLE in refusals):
        fail(f"explain-screen finds {named}, and as refusals {sorted(refusals)}", text)
    with contextlib.redirect_stdout(io.StringIO()) as said:
        explainer.verdict()
    last = said.getvalue().splitlines()[-1]
    if last.startswith("refused 3,") and not last.endswith(": the first bad word is item %s, word %s, both from 0" % tuple(named.split())):
        fail(f"explain-screen finds {named}, and its last line is '{last}'", text)
    return " ".join(str(word) for numbers in explainer.items for word in style_words(numbers)), named


def main(program, seed, count):
    r = random.Random(seed)
    screens = [(text, wanted) for _, text, wanted in run_screens.stored(".list")]
    good = [text for text, wanted in screens if not wanted.startswith(b" refused") and len(text) < 27000]
    texts = [text for text, _ in screens]
    for _ in range(count):
        text = replaced(r, r.choice(good))
        texts.append(run_screens.damaged(r, text) if r.randrange(4) == 0 else text)
    told = [(text, *found) for text, found in ((text, explained(text)) for text in texts) if found]
    tables = "".join(table + "\n" for _, table, _ in told).encode()
    answers = subprocess.run([program, "tables"], input=tables, stdout=subprocess.PIPE, check=True).stdout.decode().splitlines()
    if len(answers) != len(told):
        fail(f"{len(answers)} answers on {len(told)} tables")
    for (text, _, named), answer in zip(told, answers):
        if named != answer:
            fail(f"explain-screen finds {named}, the entry names {answer}", text)
    bad = sum(answer != "-" for answer in answers)
    print(f"diff/words screens, seed {seed}: {len(told)} screens, {bad} with a bad word, which explain-screen and the entry name alike; "
          f"{len(texts) - len(told)} texts that are no screen")


main(sys.argv[1], int(sys.argv[2]), int(sys.argv[3]))
