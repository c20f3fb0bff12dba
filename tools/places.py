#!/usr/bin/env python3
"""places.py [COMMIT]: the places in src/ where a design may have a newer form, of the work tree or of a commit.

Prints a line for each place: the point of docs/DESIGN-PASS.md, file, name, and why it was found; and the counts at the end. It reads the text
alone, so it finds candidates: what a place is, the page says.
"""
import collections
import re
import subprocess
import sys

REFUSED = re.compile(r'\b(Refused|Nothing|Unset|Unsupported|BadSetup|Done|More)\b')
NUMBER = re.compile(r'-> (u8|u16|u32|u64|usize)\b')
BARE = re.compile(r'return [01];|=> [01],|\n    [01]\n\}')
FLAG = re.compile(r'\b(answer|failed|more|whole|half|broken|comment|ended|told|begun): (bool|\w*Answer|Result<)|\bkind: u8')
CODE = re.compile(r'\b(kind|outcome|code|bits|request): (u8|bool)\b')
LOOP = re.compile(r'^ *(?:\'\w+: )?(while .*|loop) \{|^ *for (\w+) in ([^{]*\.\.[^{]*) \{', re.M)
BYTES = re.compile(r'/ 256\)? as u8|% 256\) as u8')
HAND = re.compile(r'^(same_\w+|kind_number|\w+_number|proto_of|function_of|proto|function|\w+_answer|outcome_of|code_of|kind_code|bit_value|with_func|with_error)$')
TRAVEL = [('coils', 'discretes', 'holdings', 'inputs'), ('coils', 'holdings'), ('frame', 'buf', 'response'), ('self', 'buf', 'response'),
          ('powers', 'openings', 'sums', 'nearest', 'counts'), ('table', 'cells'), ('request', 'sent'), ('text', 'record')]
LENGTH = re.compile(r'\b(\w+): &(?:\'a )?(?:mut )?\[u8\],\s*(\w*len\w*|frame_pos|start|have|used): (?:usize|u8)')
SWITCH = re.compile(r'\b(side|of|t|bits|request|kind): (Side|Cells|Table|CellKind|bool)\b')


def files(commit):
    """Each source file with its text."""
    if commit:
        names = subprocess.run(['git', 'ls-tree', '-r', '--name-only', commit], check=True, capture_output=True, text=True).stdout.split()
        for name in names:
            if re.match(r'crates/\w+/src/.*\.rt$', name):
                yield name, subprocess.run(['git', 'show', f'{commit}:{name}'], check=True, capture_output=True, text=True).stdout
        return
    for name in subprocess.run(['git', 'ls-files', 'crates'], check=True, capture_output=True, text=True).stdout.split():
        if re.match(r'crates/\w+/src/.*\.rt$', name):
            with open(name, encoding='utf-8') as f:
                yield name, f.read()


def items(text, word):
    """Name, head and body of each function, or each struct or enum."""
    for m in re.finditer(r'^( *)(?:pub(?:\(crate\))? )?(?:extern "C" )?(?:%s) (\w+)' % word, text, re.M):
        end = re.compile(r'^%s\}' % m.group(1), re.M).search(text, m.end())
        whole = text[m.start():end.end() if end else len(text)]
        cut = re.search(r'^%s\{' % m.group(1), whole, re.M)
        head, body = (whole[:cut.start()], whole[cut.start():]) if cut else (whole.split('{')[0], whole)
        yield m.group(2), head, body


def shape(head, body):
    """A function's text with its name, numbers, types and variants taken away."""
    head = re.sub(r'\b(requires|ensures)\b[^{]*\{.*', '', head, flags=re.S)
    text = re.sub(r'fn \w+', 'fn', head) + body
    text = re.sub(r'\b[A-Z]\w*(::[A-Z]\w*)?', 'C', text)
    text = re.sub(r'\b(u8|u16|u32|u64|usize|bool)\b', 'T', re.sub(r'\b(0x[0-9a-fA-F]+|\d+)(u8|u16|u32|usize)?\b', 'N', text))
    return re.sub(r'\s+', ' ', re.sub(r'//.*', '', text))


def found(commit):
    """Each place: point, file, name, reason."""
    shapes = collections.defaultdict(list)
    for name, text in files(commit):
        for item, head, body in items(text, 'enum'):
            if REFUSED.search(body) or item.endswith('Answer'):
                yield 1, name, item, 'an enum with a case for none or refused'
        for item, head, body in items(text, 'struct'):
            if FLAG.search(body):
                yield 1, name, item, 'a flag or an answer beside values'
        for item, head, body in items(text, 'struct|enum'):
            if len(body.split('\n')) > 3:
                shapes[re.sub(r'\bu\d+\b|\bbool\b|\busize\b', 'T', body.split('\n', 1)[1])].append((name, item))
        for item, head, body in items(text, 'fn'):
            params = re.findall(r'\b(\w+): ', re.sub(r'\b(requires|ensures)\b.*', '', head, flags=re.S))
            params += ['self'] if re.search(r'\((&mut |&|mut )?self\b', head) else []
            if NUMBER.search(head) and BARE.search(body):
                yield 1, name, item, 'answers a number that may be a refusal'
            if CODE.search(head):
                yield 1, name, item, 'takes a number or a flag for a kind'
            shapes[shape(head, body)].append((name, item))
            for m in LOOP.finditer(body):
                if m.group(1) or re.search(r'\b%s\b' % m.group(2), body[m.end():]):
                    yield 3, name, item, m.group(0).strip()
            if BYTES.search(body):
                yield 4, name, item, 'bytes of a number by hand'
            if HAND.match(item):
                yield 4, name, item, 'a conversion or comparison by hand'
            group = next((g for g in TRAVEL if all(p in params for p in g)), None)
            if group:
                yield 5, name, item, ', '.join(group)
            for m in LENGTH.finditer(head):
                yield 6, name, item, f'{m.group(1)} with {m.group(2)}'
            if SWITCH.search(head) and re.search(r'\bmatch |\bif ', body):
                yield 7, name, item, SWITCH.search(head).group(0)
    for group in shapes.values():
        if len(group) > 1:
            for name, item in group:
                yield 2, name, item, f'{len(group)} of one shape'


def main():
    places = sorted(set(found(sys.argv[1] if len(sys.argv) > 1 else None)))
    for point, name, item, why in places:
        print(point, name, item, why, sep='\t')
    counts = collections.Counter(p[0] for p in places)
    print('\t'.join(f'point {k}: {counts[k]}' for k in range(1, 8)))


main()
