#!/usr/bin/env python3
"""Brings the repository's own definitions and lemmas to today's spelling: words in snake case, types and modules as they were.

    python3 tools/respell.py [--dry]

Run once at the top, after the kit's port.py. Functions of src/, exported C names, strings, inputs and outputs keep their names,
and so do the names that the toolchain makes (returns-2, loop-again).
"""
import os, re, subprocess, sys

DRY = '--dry' in sys.argv
STOP = r'\s(){}\[\];,.«»"`'
TOKEN = re.compile('[^' + STOP + ']+')
# names that the toolchain makes from a function's text
MADE = re.compile(r'^(returns|invariant|decreases|loop|measure|with|after|callee|call|Need|After|Lts|Inv|enum|struct|if)(-|\d|$)|-(spec|lts|loop|requires|again|init)(-\d+)?$')
# renamed by hand, since the spelling by rule falls together with another name
BY_HAND = {
    # as a function of src/
    'atOperand': 'operand_step', 'atOperator': 'operator_step', 'bigEndian': 'big_endian_of', 'entryAt': 'entry_in',
    'firstWords': 'leading_words', 'gradeSum': 'sum_of_grades', 'isFact': 'names_fact', 'joinEntry': 'entry_of_join',
    'leafEntry': 'entry_of_leaf', 'prefixEntry': 'entry_of_prefix', 'withOperand': 'operand_put', 'recordAt': 'record_in',
    'tripleAt': 'triple_in', 'usedBits': 'bits_used', 'weightOf': 'entry_weight', 'wideAt': 'wide_in', 'wordAt': 'word_in',
    'workWords': 'words_needed', 'refersUp': 'refers_upward',
    # a lemma as its definition
    'at-end': 'at_end_is', 'codes-below': 'codes_below_kept', 'counting-of': 'counting_some', 'fault-of': 'fault_of_number',
    'join-kind': 'join_kind_is', 'own-verdict': 'own_verdict_is', 'pair-there': 'pair_there_is', 'stray-bits': 'stray_bits_is',
    'plain-structure': 'structure_plain', 'plain-verdict': 'verdict_plain', 'mark-of': 'mark_of_number',
    # as a definition of the library
    'bit-and': 'bit_of_and', 'bit-or': 'bit_of_or', 'is-none': 'none_is',
}

def files(*ends):
    out = subprocess.check_output(['git', 'ls-files', '-co', '--exclude-standard'], text=True).split('\n')
    return [f for f in out if f.endswith(ends) and os.path.exists(f)]

def snake(name):
    name = re.sub(r'(?<=[a-z0-9])([A-Z])', lambda m: '_' + m.group(1).lower(), name) if re.match(r'[a-z]', name) else name
    return name.replace('-', '_')

def bare(text):
    return re.sub(r'--[^\n]*', '', text)

DECL = re.compile(r'^(?P<ind> *)(?:(?:abbrev|unfoldable|pub|data|record|transparent|axiom) +)*(?P<names>[^' + STOP + r':=]+(?: +[^' + STOP + r':=]+)*) :(?= |$)', re.M)
HEAD = re.compile(r'^ *(?:abbrev +|unfoldable +|pub +)*(?:data|record) +(?:pub +)?(?P<name>[^' + STOP + r']+)', re.M)

def declared(path):
    """The names that a file declares, each with its type."""
    text = bare(open(path).read())
    for m in DECL.finditer(text):
        first = text[m.end():].split('\n', 1)[0]
        for name in m['names'].split():
            yield name, first
    for m in HEAD.finditer(text):
        yield m['name'], 'Type'

def own():
    """Old name to new, of all that the repository declares."""
    names = {}
    for f in files('.antt'):
        if not f.startswith('crates/') or '/out/' in f: continue
        proof = f.endswith('/Proof.antt')
        for name, first in declared(f):
            if name in ('let', 'in', 'λ', 'elim', 'use', 'where', '|'): continue
            # the answers of a function's proof are named by its goals
            if proof and (re.search(r'tie\.|lts\.|statement|Need-|After-|\{M', first) or MADE.search(name)): continue
            new = BY_HAND.get(name, snake(name))
            if new != name: names.setdefault(name, (new, f))
    return names

FOREIGN = re.compile(r'^(?:pub )?(?:ghost )?use ([^\s{;]+)\.\{([^}]*)\}', re.M)

def foreign(text, crates):
    """Names that a file takes from the library."""
    out = set()
    for m in FOREIGN.finditer(text):
        path = m.group(1).split('.')
        if path[0] == 'Rattle' and len(path) > 1 and path[1] in crates: continue
        for item in m.group(2).split(','):
            out.update(re.split(r' as ', item.strip()))
    return out

def respell(text, names, skip):
    return TOKEN.sub(lambda m: names[m[0]][0] if m[0] in names and m[0] not in skip else m[0], text)

def main():
    crates = {l.split(':')[0].split()[0] for l in open('crates.txt') if ':' in l and not l.startswith('#')}
    names = own()
    changed = 0
    for f in files('.antt', '.rt', '.edit'):
        if not f.startswith('crates/'): continue
        text = open(f).read()
        new = respell(text, names, foreign(text, crates))
        if new != text:
            changed += 1
            if not DRY: open(f, 'w').write(new)
    for f in files('.md'):
        text = open(f).read()
        new = re.sub(r'`([^`\n]+)`', lambda m: '`' + respell(m[1], names, set()) + '`', text)
        if new != text:
            changed += 1
            if not DRY: open(f, 'w').write(new)
    if DRY:
        for old, (new, f) in sorted(names.items()): print(old, new, f)
    print(f'{len(names)} names, {changed} files', file=sys.stderr)

if __name__ == '__main__':
    main()
