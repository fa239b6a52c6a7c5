#!/usr/bin/env python3
"""Misreadings written into definition and code alike, and what the checker then refuses. Run at the root of the repository after a check.

    tools/misread/edits.py [axis|box|preview] [WORD]
    tools/misread/edits.py --applied                          only tries whether the old texts of all entries stand where they should

tries all of the three lists, of one of them, or those whose name has WORD, one after another, in a copy of crates/. An entry of axis_edits.py
or box_edits.py is a name, crates, and edits (of preview_edits.py a name and edits): a file under crates/, the old text, the new one, and how often
the old one stands there if not once. A pair as old text is all from the first up to the second (None: to the file's end); None as old text takes the file away. A name is that of the same
misreading of the models axis.py and box.py (a preview has no model), which then say which of the refused laws and rows are false: so a law that is broken is told apart from
a law whose proof merely no longer fits.

- Of an axis: the crates are those whose laws are asked in turn (or a pair of such a crate and more edits before it is asked). Some 10 s; half a
  minute to a minute where the laws on quarters are asked.
- Of a box: laws and rows are asked of the changed definitions without the code (bare.py); then the crates named, whose code is edited, are proved
  anew, not those above. Half a minute or more.
- Of a preview: the rows of test_run_rows are computed from the changed definition, without code and without the theorems of run, which go by the
  definition. Each list of rows that doesn't hold is false, since it is computed. A quarter of a minute.

Prints, for each, what refuses it, first what is false on the model, then the functions whose proof no longer fits: a changed call or operation asks
for a changed proof file, which refuses nothing. The functions of an axis have none: what fits is what Rattle finds. No stored sample is asked.
Fails where nothing refuses an edit that the model says is false."""
import os
import pathlib
import re
import shutil
import subprocess
import sys
import tempfile
import time

sys.dont_write_bytecode = True
sys.path.insert(0, str(pathlib.Path(__file__).parent))
import axis
import axis_edits
import bare
import box
import box_edits
import preview_edits

INPUTS = 3000
ERROR = re.compile(r'^\./proofs/(\S+?)\.antt:(\d+):\d+: error: ')
# what only follows from another refusal
FOLLOWS = re.compile(r'(was|were) not (admitted|checked)|was rejected')
# a file of the proof of one function
OF_FUNCTION = re.compile(r'(.*)/(?:Answers|Invariants|Proof)')


def declarations(file):
    """The line at which each declaration of a proof file begins, its name, and the statement that it proves, if it proves a law."""
    found = []
    for n, text in enumerate(open(file), 1):
        named = re.match(r'(?:pub )?([a-z]\S*) : (.*)|(module) ', text)
        if named: found.append((n, named[1] or named[3], named[2] if re.fullmatch(r'[A-Z]\w*', named[2] or '') else None))
    return found


def leaning(file, lemma):
    """The declarations of a proof file that cite a lemma, or one that does."""
    lines, found = open(file).read().splitlines(), {lemma}
    own = re.compile(r' *(?:pub )?([a-z][\w\']*) :')
    starts = [n for n, text in enumerate(lines) if own.match(text)]
    bodies = [(own.match(lines[n])[1], ' '.join(lines[n:end])) for n, end in zip(starts, [*starts[1:], len(lines)])]
    while more := {name for name, body in bodies if name not in found and found & set(re.findall(r"[\w']+", body))}: found |= more
    return found


def laws_and_unfit(copy, crate, output):
    """The laws that are refused, at their own lemma or at one below it, and the functions and theorems whose proof no longer fits."""
    # where a library below isn't proved, it is that which was checked
    crate = (re.search(r'^rt: the library (\w+) did not build', output, re.M) or [None, crate])[1]
    laws, unfit = [], re.findall(r'^fn \w+::(\S+): (?:not proved|no proof)(?![;:] it calls)', output, re.M)
    for text in output.splitlines():
        error = ERROR.search(text)
        if not error or FOLLOWS.search(text) and OF_FUNCTION.fullmatch(error[1]): continue
        proof, at = error[1], int(error[2])
        if OF_FUNCTION.fullmatch(proof):
            unfit.append(OF_FUNCTION.fullmatch(proof)[1].replace('/', '::'))
            continue
        declared = declarations(f'{copy}/crates/{crate}/proofs/{proof}.antt')
        name, law = next(((name, law) for n, name, law in reversed(declared) if n <= at), (proof, None))
        of_laws = proof == 'Laws' or crate.endswith('_laws')
        if of_laws and law: laws.append(law)
        # the line of those that lean on it names them all
        after = re.sub(r' \(via [^)]*\)', '', text.partition(' not checked: ')[2]).split(', ')
        if re.search(r' and \d+ more$', text): after = leaning(f'{copy}/crates/{crate}/proofs/{proof}.antt', re.search(r'depends? on `([^`]+)`', text)[1])
        if of_laws: laws += [law for _, name, law in declared if law and name in after]
        if not of_laws and not FOLLOWS.search(text): unfit.append(f'{crate}: {name}')
    return list(dict.fromkeys(laws)), list(dict.fromkeys(unfit))


def asked(copy, crate):
    run = subprocess.run(['rt', 'check'], cwd=os.path.join(copy, 'crates', crate), stdout=subprocess.PIPE, stderr=subprocess.STDOUT, text=True)
    return run.stdout


def copied(root, copy, crate):
    """A crate's sources, without what rt made of them; rt takes over what checks on this machine kept."""
    for part in ('src', 'specs', 'proofs'):
        if os.path.isdir(os.path.join(root, 'crates', crate, part)):
            shutil.copytree(os.path.join(root, 'crates', crate, part), os.path.join(copy, 'crates', crate, part))


def restored(root, copy, crate):
    for part in ('src', 'specs', 'proofs'): shutil.rmtree(os.path.join(copy, 'crates', crate, part), ignore_errors=True)
    copied(root, copy, crate)


def false_on_model(module, changed, laws):
    """Those of the laws that the misreading breaks on the model."""
    found = set()
    for i in module.inputs(INPUTS):
        found.update(law for law in laws if law in module.LAWS and law not in found and module.LAWS[law](changed(), *i) is False)
    return [law for law in laws if law in found]


def write(copy, name, edits):
    for file, old, new, *times in edits:
        path = os.path.join(copy, 'crates', file)
        if old is None:
            shutil.rmtree(path) if os.path.isdir(path) else os.path.exists(path) and os.remove(path)
            continue
        text = open(path).read()
        if isinstance(old, tuple): old = text[text.index(old[0]):old[1] and text.index(old[1], text.index(old[0]))]
        assert text.count(old) == (times or [1])[0], (name, file, old, text.count(old))
        open(path, 'w').write(text.replace(old, new))


def tried(root, copy, module, name, crates, edits):
    """Whether a law refuses the entry, one that is false on the model if that has it; and whether the functions are proved."""
    began, laws, unfit = time.time(), [], []
    write(copy, name, edits)
    for crate in crates:
        if isinstance(crate, tuple):
            crate, more = crate
            write(copy, name, more)
        output = asked(copy, crate)
        found, other = laws_and_unfit(copy, crate, output)
        laws += found
        unfit += other
        if laws: break
    if not laws: print(next((l for l in output.splitlines() if 'error' in l or 'not proved' in l or 'no proof' in l), 'all is proved'))
    for crate in {f.split('/')[0] for f, *_ in edits + [e for c in crates if isinstance(c, tuple) for e in c[1]]}:
        restored(root, copy, crate)
    changed = dict(module.MISREADINGS).get(name)
    false = false_on_model(module, changed, laws) if changed else laws
    said = f'refused by {", ".join(false) or "NO LAW THAT IS FALSE"}' + (' (false on the model)' if changed and false else '')
    if laws != false: said += f', and with it {", ".join(l for l in laws if l not in false)}'
    print(f'{name}: {said if laws else "refused by NOTHING"}; proofs of code that no longer fit: {", ".join(unfit) or "none"}; {time.time() - began:.0f} s', flush=True)
    return bool(false), not unfit


# ---- a box: its laws and rows without the code, then the code

def refused_without_code(copy):
    """The laws and rows that are refused of the definitions in a copy without code; what else went wrong."""
    refused, broken = [], []
    for crate in ('oof_box_laws', 'test_oof_box_rows'):
        output = asked(copy, crate)
        lemmas = re.findall(r'^\./\S+\.antt:\S+ error: `([^`]+)`', output, re.M)
        refused += laws_and_unfit(copy, crate, output)[0] if crate == 'oof_box_laws' else [r for r in bare.ROWS if r.replace(' ', '_') in lemmas]
        if not lemmas and not (re.findall(r'^logic=\S+', output, re.M) or [''])[-1] == 'logic=proved': broken.append(output.splitlines()[-1])
    return refused, broken


def tried_box(root, copy, bare_copy, name, crates, edits):
    """As tried, of a box. The size law is oof_box's own."""
    began, files = time.time(), dict.fromkeys(f for f, *_ in edits)
    write(copy, name, edits)
    for file in [f for f in files if '/specs/' in f]: shutil.copy(os.path.join(copy, 'crates', file), os.path.join(bare_copy, 'crates', file))
    refused, broken = refused_without_code(bare_copy)
    unfit = []
    for crate in crates:
        output = asked(copy, crate)
        unfit += laws_and_unfit(copy, crate, output)[1]
        if re.search(r'error: .*\bsize_law\b', output): refused.append('SizeLaw')
    unfit = [u for u in dict.fromkeys(unfit) if u != 'oof_box: size_law']
    for file in files:
        for to in (copy, bare_copy) if '/specs/' in file else (copy,): shutil.copy(os.path.join(root, 'crates', file), os.path.join(to, 'crates', file))
    changed = dict(box.MISREADINGS)[name]
    rows = [r for row, holds in box.ROWS.items() if not holds(changed()) for r in bare.ROWS if row.split()[-1] in r.split()]
    false = [r for r in refused if r in rows] + false_on_model(box, changed, refused)
    said = f'refused by {", ".join(false) or "NOTHING THAT IS FALSE"}' + (' (false on the model)' if false else '')
    if len(refused) > len(false): said += f', and with it {", ".join(r for r in refused if r not in false)}'
    print(f'{name}: {said}; proofs of code that no longer fit: {", ".join(unfit) or "none"}; {time.time() - began:.0f} s', *broken, flush=True)
    return bool(false) and not broken, not unfit


# ---- a preview: its rows, computed

def made_bare_of_theorems(copy):
    """Takes away the theorems of run, whose proofs go by the definition, and the lists of rows that speak of no preview."""
    shutil.rmtree(os.path.join(copy, 'crates/run/proofs'), ignore_errors=True)
    proofs = os.path.join(copy, 'crates/test_run_rows/proofs')
    os.remove(os.path.join(proofs, 'Computed.antt'))
    open(os.path.join(proofs, 'Lib.antt'), 'w').write('mod Previews\n')


def rows_refused(copy):
    """How many rows of each list are false, and what else went wrong."""
    output = asked(copy, 'test_run_rows')
    errors = re.findall(r'^\./proofs/Previews\.antt:\S+ error: `(preview_\w+_rows)`(.*)', output, re.M)
    # a row that takes too many steps isn't computed
    stopped = [f'{name}{said}' for name, said in errors if 'step limit' in said]
    lists = [name for name, said in errors if 'step limit' not in said]
    proved = (re.findall(r'^logic=\S+', output, re.M) or [''])[-1] == 'logic=proved'
    return {name: lists.count(name) for name in lists}, stopped or ([] if lists or proved else output.splitlines()[-1:])


def tried_preview(root, copy, name, edits):
    began = time.time()
    write(copy, name, edits)
    refused, broken = rows_refused(copy)
    for file in {f for f, *_ in edits}: shutil.copy(os.path.join(root, 'crates', file), os.path.join(copy, 'crates', file))
    said = ', '.join(f'{number} of {rows}' for rows, number in refused.items()) or 'NOTHING'
    print(f'{name}: refused by {said} (computed); {time.time() - began:.0f} s', *broken, flush=True)
    return bool(refused) and not broken, True


def applied(root):
    """What of the entries no longer stands."""
    wrong = []
    for entries in (axis_edits, box_edits, preview_edits):
        for name, *crates, edits in entries.EDITS:
            crates = crates[0] if crates else []
            with tempfile.TemporaryDirectory() as copy:
                for file in {f for f, *_ in edits + [e for c in crates if isinstance(c, tuple) for e in c[1]]}:
                    if os.path.isfile(os.path.join(root, 'crates', file)):
                        os.makedirs(os.path.dirname(os.path.join(copy, 'crates', file)), exist_ok=True)
                        shutil.copy(os.path.join(root, 'crates', file), os.path.join(copy, 'crates', file))
                try:
                    for part in [edits, *(c[1] for c in crates if isinstance(c, tuple))]: write(copy, name, part)
                except (AssertionError, ValueError, OSError) as error:
                    wrong.append(f'{name}: {error}')
    return wrong


def main():
    root, began, words = os.getcwd(), time.time(), sys.argv[1:]
    if words == ['--applied']:
        wrong = applied(root)
        print(*wrong, f'edits: {len(axis_edits.EDITS) + len(box_edits.EDITS) + len(preview_edits.EDITS)} misreadings, {len(wrong)} of them with an old text that doesn\'t stand', sep='\n')
        sys.exit(bool(wrong))
    lists = [(axis, axis_edits), (box, box_edits), (preview_edits, preview_edits)]
    if words and words[0] in ('axis', 'box', 'preview'): lists, words = [l for l in lists if l[1].__name__ == f'{words[0]}_edits'], words[1:]
    chosen = [(module, *e) for module, entries in lists for e in entries.EDITS if not words or words[0] in e[0]]
    if not chosen or len(words) > 1: sys.exit('edits: no misreading of that name')
    of = {module for module, *_ in chosen}
    copies = {kind: tempfile.mkdtemp() for kind, asks in (('whole', {axis, box}), ('bare', {box}), ('rows', {preview_edits})) if of & asks}
    try:
        for copy in copies.values():
            for crate in os.listdir(os.path.join(root, 'crates')): copied(root, copy, crate)
            shutil.copy(os.path.join(root, 'crates.txt'), copy)
        if box in of:
            bare.make_bare(copies['bare'])
            if any(refused_without_code(copies['bare'])): sys.exit('edits: refused without an edit')
        if preview_edits in of:
            made_bare_of_theorems(copies['rows'])
            if any(rows_refused(copies['rows'])): sys.exit('edits: refused without an edit')
        tries = {axis: lambda *e: tried(root, copies['whole'], axis, *e), box: lambda *e: tried_box(root, copies['whole'], copies['bare'], *e),
                 preview_edits: lambda *e: tried_preview(root, copies['rows'], *e)}
        outcomes = [tries[module](*entry) for module, *entry in chosen]
    finally:
        for copy in copies.values(): shutil.rmtree(copy)
    refused, fit = [sum(o[i] for o in outcomes) for i in range(2)]
    print(f'{refused} of {len(chosen)} refused by a law or a row that is false on the model, or by rows that are computed')
    if of - {preview_edits}: print(f'{fit} leave every proof of the code as it was')
    print(f'{time.time() - began:.0f} s')
    sys.exit(refused < len(chosen))


if __name__ == '__main__': main()
