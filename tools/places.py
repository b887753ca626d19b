#!/usr/bin/env python3
"""Finds places in src/ that are written in an older form: `python3 tools/places.py [--list] [POINT ..] [--at FOLDER]`.

Each point of docs/DESIGN-PASS.md has named forms, each found by a pattern over the text of crates/*/src. It prints
how many places each form has, and with --list each place. A place that carries a reason (a comment line that says
why it stays, within the three lines above it or on it) is counted as kept.
"""
import glob
import os
import re
import sys

FN = r'fn \w+(?:<[^>]*>)?\([^{]*?\)[^{;]*?'

# point -> [(form, pattern)]; patterns are searched over a whole file, comments blanked out
FORMS = {
    1: [
        ('an enum or a unit struct that derives no equality', r'#\[derive\(Clone, Copy\)\]\s*(?:pub )?(?:enum \w+|struct \w+;)'),
        ('a flag beside the value that it speaks of', r'\b(?:quiet|first|occupied): bool|Result<bool, Field>|let mut fresh'),
        ('a number for a kind or a refusal', r'\bfamily: [01],|match raw\.family|= \d+u8;|=> \(\d, |^\s*1 => Ok\(true\)'),
        ('a number where there is nothing to answer', r'-> u8[^{]*\{[^{}]*\}\s*\{\s*0\s*\}'),
        ('a value with a count beside it', r'Option<\(\w+, usize\)>'),
    ],
    2: [
        ('a conversion written as a method of each type', r'fn number\(self\) -> u8|fn of\(number: u8\)'),
        ('a test of a field or a word written once for each type', r'fn (?:row|transport|processing|reading|moment_of|code|name_of|acquired|zero|no_bytes|byte|number)(?:<\'a>)?\((?:number|bytes|word|field)[^)]*\)\s*->\s*(?:Result|Option)'),
        ('a function that only calls another one with its own arguments', r'^\s*\{\n\s+(?:(?:self|[A-Z]\w+)(?:\.|::))?[a-z_]+\((?:(?:self\.)?[a-z]\w*(?:, )?)*\);?\n\s*\}'),
        ('the fields of a report, declared, copied or left 0 one by one', r'\btransport: \w[^,]*,\s*(?:pub )?processing: \w[^,]*,\s*(?:pub )?reading: \w[^,]*,\s*(?:pub )?spare|transport: self\.transport,'),
        ('equality of a state written once for each enum', r'fn is_(?:at|in|read)\('),
        ('the same loop over bytes that writes each', r'for &?b in [\w.]+ \{\s*(?:push\w*\((?:&mut )?out|write_byte)'),
        ('the same look-up, change and writing back', r'if let Some\(place\) = self\.places\.lookup'),
        ('a row type that differs from another in one field', r'pub struct (?:Place|Wafer)(?:<N>)? \{'),
        ('the same helper in two test files', r'fn (?:text|report|bytes_of)\([^)]*\) -> Result<'),
    ],
    3: [
        ('a `for` over indices', r'for \w+ in 0\.\.(?:\w+\.len\(\)|n\b)'),
        ('a `while` that counts', r'while (?!let)'),
        ('an index from `enumerate` that cuts or counts', r'\.enumerate\(\)'),
        ('a bound tested by hand before an index', r'if \w+ (?:<|>=) (?:\w+\.)*(?:len\(\)|count\b(?:\(\))?|used\b)|if left\(|if self\.free\(\) == 0|if self\.memory\.unused\(at\) <|if self\.len\(\) < STRIDE|if bytes\.len\(\) < STRIDE'),
        ('sums and shifts written out one by one', r'u64::from\(text\[at\]\)|\(upper >> 49|\(lower >> 49'),
        ('words taken by hand-kept positions', r'\bat\(words, \d\)|count\(words\)|rest\(words\)'),
    ],
    4: [
        ('equality written by hand', r'fn same(?:_text)?\(|\.same\(|state\.number\(\) == other\.number\(\)'),
        ('a conversion written by hand', r'fn number\(self\) -> u8|fn of\(number: u8\)|Some\(\w+\) => Some\(\w+ as u\d+\)'),
        ('a `match` that a method of Option or Result says', r'Some\(_\) => (?:false|1),|Some\(\w+\) => (?:Ok\(|self\.get|\w+\.is_|one\()[^\n]*\n\s*None =>|Ok\(\w+\) => Ok\([^\n]*\n\s*Err|None => Some\(wafer\),'),
        ('a `match` that `matches!` says', r'=> (?:true|false),\n\s*_ => (?:true|false),'),
        ('a `let` or `?` only to pass a result on', r'let (\w+) = [^;]*\?;\s*Ok\(\1\)|^\s*(?:push|hex::|out\.)[^;]*\?;\s*Ok\(\(\)\)'),
        ('printing by a function that names or builds text', r'fn (?:name|wanted|no_text)\(|fn \w+_line\(heap|fn (?:fault|verdict|refusal|line)\(heap|fn bytes\(heap: Global, bytes'),
        ('printing that no clause describes', r'impl fmt::Display for (?:Quoted|Mistake)<\'_> \{\s*fn'),
    ],
    5: [
        ('the key of a row, spelt out in a clause', r'λ row\. R\.Key\.Key\.meaning \(R\.Row\.named row\)|says R\.named R\.Key\.meaning'),
        ('the lender, in a clause', r'ghost_name ≡'),
        ('what a sink took, spelt out in a clause', r'\(S\.list sink\.old\)|S\.since earlier sink\.old'),
        ('what bytes are, in a clause', r'AllBelowBase 256|< 2 \^ 64'),
        ('rows or bytes and how many are used, as two parameters', r'(?:rows|bytes|entries): [^,()]*, (?:used|count): usize'),
        ('a wafer and whether it stands at a station, as two parameters', r'wafer: [^,()]*, at_station: bool'),
    ],
    6: [
        ('an array or lent slice with a count beside it', r'(?:\[[^\[\]]*; \d+\]|&\'a mut \[\w+\]|Memory<\'a>),(?:\s*\w+: [^,{}]*,)*?\s*(?:size|count|used): usize'),
        ('parallel arrays, lists searched by hand, arenas', r'binary_search|parent: usize|next: usize'),
    ],
    7: [
        ('a table of functions, a step number, a dispatch by hand', r'\[fn\(|: fn\(|dyn |step: u\d+'),
        ('functions that differ in the step taken at each element', r'fn push(?:_echo|_word|_next)?\(out'),
    ],
}


def blanked(text):
    """The text without comments; a comment is blanked, so that lines keep their numbers."""
    return re.sub(r'//[^\n]*', lambda m: ' ' * len(m.group()), text)


def uncited(folder):
    """Lemmas of proofs/ that stand outside a function's folder and that no other place names."""
    texts = {p: open(p).read() for p in sorted(glob.glob(os.path.join(folder, 'crates/*/**/*.antt'), recursive=True))
             + sorted(glob.glob(os.path.join(folder, 'crates/*/src/**/*.rt'), recursive=True))}
    words = {p: re.findall(r"[^\s(){};,.λ∷]+", re.sub(r'--[^\n]*', '', t)) for p, t in texts.items()}
    count = {}
    for p, ws in words.items():
        for w in ws:
            count[w] = count.get(w, 0) + 1
    for p, t in texts.items():
        parts = os.path.relpath(p, folder).split(os.sep)
        if len(parts) != 4 or parts[2] != 'proofs':
            continue
        for m in re.finditer(r'^pub ([^\s:]+) :', t, re.M):
            own = len(re.findall(r'^' + re.escape(m.group(1)) + r'(?=[\s])', t, re.M))
            if count.get(m.group(1), 0) <= 1 + own:
                yield os.path.relpath(p, folder), t.count('\n', 0, m.start()) + 1, m.group(1)


def proofs(folder, listed):
    answers = files = lines = 0
    for p in glob.glob(os.path.join(folder, 'crates/*/proofs/**/*.antt'), recursive=True):
        t = open(p).read()
        lines += t.count('\n')
        n = len(re.findall(r'^pub \S+ : goal\.', t, re.M))
        answers += n
        files += n > 0
    lone = list(uncited(folder))
    print(f'point 8: {lines} lines of proof, {answers} answers in {files} files, {len(lone)} lemmas that nothing cites')
    if listed:
        for path, at, name in lone:
            print(f'         {path}:{at}: {name}')


REASON = re.compile(r'//.*\b(?:fixed memory|no heap|no plainer|the proof did not close|speed)\b')


def places(folder, point):
    for form, pattern in FORMS[point]:
        found = []
        for path in sorted(glob.glob(os.path.join(folder, 'crates/*/src/**/*.rt'), recursive=True)):
            text = open(path).read()
            lines = text.split('\n')
            for m in re.finditer(pattern, blanked(text), re.M):
                if form.startswith('a number for a kind') and '/trials/' in path:
                    continue
                at = text.count('\n', 0, m.start()) + 1
                end = text.count('\n', 0, m.end()) + 1
                kept = any(REASON.search(x) for x in lines[max(0, at - 5):end])
                found.append((os.path.relpath(path, folder), at, kept, lines[at - 1].strip()))
        yield form, found


def main():
    args = sys.argv[1:]
    folder = '.'
    if '--at' in args:
        folder = args.pop(args.index('--at') + 1)
        args.remove('--at')
    listed = '--list' in args
    points = [int(a) for a in args if a.isdigit()] or sorted(FORMS) + [8]
    for point in points:
        if point == 8:
            proofs(folder, listed)
            continue
        total = kept = 0
        rows = list(places(folder, point))
        for form, found in rows:
            total += len(found)
            kept += sum(k for _, _, k, _ in found)
        print(f'point {point}: {total} places, {kept} of them with a reason')
        for form, found in rows:
            print(f'  {len(found):3d}  {form}')
            if listed:
                for path, at, k, line in found:
                    print(f'         {path}:{at}{" (reason)" if k else ""}: {line[:90]}')


main()
