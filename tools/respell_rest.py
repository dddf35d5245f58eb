#!/usr/bin/env python3
"""Brings to today's spelling what respell.py passed over: helpers in answer files, and names after `as` in `use` lines.

    python3 tools/respell_rest.py

Run once at the top. A helper is a definition of an answer file that is not `pub`; it is seen in its file alone.
"""
import re, subprocess, sys

STOP = r'\s(){}\[\];,.«»"`'
TOKEN = re.compile('[^' + STOP + ']+')
HELPER = re.compile(r'^([a-z][^' + STOP + r':=]*) :(?= )', re.M)
ALIAS = re.compile(r'\bas ([a-z]+[A-Z]\w*)')

def snake(name):
    return re.sub('[A-Z]', lambda m: '_' + m[0].lower(), name).replace('-', '_')

def main():
    changed = {}
    for f in subprocess.check_output(['git', 'ls-files', '-co', '--exclude-standard', 'crates/*.antt', 'crates/*.rt'], text=True).split():
        try: text = open(f).read()
        except FileNotFoundError: continue
        helpers = set(HELPER.findall(text)) if f.endswith('/Answers.antt') else set()
        names = {n: snake(n) for n in helpers | set(ALIAS.findall(text)) if snake(n) != n}
        there = set(TOKEN.findall(text))
        for old, new in names.items():
            if new in there: sys.exit(f'{f}: {old} falls together with {new}')
        new = TOKEN.sub(lambda m: names.get(m[0], m[0]), text)
        if new != text:
            open(f, 'w').write(new)
            changed[f] = names
    for f, names in changed.items():
        print(f, *(f'{old} {new}' for old, new in sorted(names.items())), sep='\n    ')

if __name__ == '__main__':
    main()
