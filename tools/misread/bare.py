"""A box's crates as their definitions alone, so that laws and rows can be asked in seconds: they speak of definitions, and of no code."""
import os
import re
import shutil

CRATES = ('oof_common', 'oof_resolve', 'oof_place', 'oof_box')
ROWS = {'rows 1 to 9': 'axis_rows', 'rows 10 and 11': 'box_rows', 'rows 12 and 13': 'overflow_rows', 'rows of stretch': 'stretch_rows'}


def without_functions(text):
    """The types of a source file: no function, and no name of a `use` that only functions need."""
    text = re.sub(r'(?ms)^(?:#\[[^\n]*\]\n)*(pub )?(fn|impl)\b.*?^}\n', '', text)
    text = re.sub(r'(?m)^(ghost use|//).*\n', '', text)
    text = re.sub(r'(?m)^#!\[tactic\(.*\)\]$', '#![tactic(auto)]', text)
    body = re.sub(r'(?ms)^use .*?;\n', '', text)
    needed = lambda name: re.search(rf'(?<![:\w]){name.split(" as ")[-1].split("::")[-1]}\b', body)

    def kept(use):
        path, brace, names = use[1].partition('{')
        if not brace: return use[0] if needed(path) else ''
        names = [n for n in re.split(r',\s*', names.strip('}, \n')) if needed(n)]
        return f'use {path}{{{", ".join(names)}}};\n' if names else ''
    return re.sub(r'(?ms)^use (.*?);\n', kept, text)


def make_bare(copy):
    """Takes the code and its proofs from a copy of the repository, and the samples from the rows, which become a test for each list of ROWS."""
    for crate in CRATES:
        shutil.rmtree(os.path.join(copy, 'crates', crate, 'proofs'), ignore_errors=True)
        for folder, _, files in os.walk(os.path.join(copy, 'crates', crate, 'src')):
            for path in [os.path.join(folder, f) for f in files]:
                types = without_functions(open(path).read())
                open(path, 'w').write(types)
    proofs = os.path.join(copy, 'crates/test_oof_box_rows/proofs')
    os.remove(os.path.join(proofs, 'Samples.antt'))
    open(os.path.join(proofs, 'Lib.antt'), 'w').write('mod Rows\n')
    text = open(os.path.join(proofs, 'Rows.antt')).read()
    head, test = text[:text.index('rows_hold :')], text[text.index('rows_hold :'):]
    tests = [test.replace('all rows ≡', f'all {rows} ≡').replace('rows_hold', name.replace(' ', '_')) for name, rows in ROWS.items()]
    open(os.path.join(proofs, 'Rows.antt'), 'w').write(head + '\n'.join(tests))
