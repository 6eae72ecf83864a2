#!/usr/bin/env python3
"""Lists the places of each form that the design pass looks for in crates/*/src, one line a place.

    python3 tools/forms.py [TREE]         every list, each with its count
    python3 tools/forms.py [TREE] NAME    one list

TREE is a checkout; the default is the one that this file stands in. docs/record/DESIGN-PASS.md says what
became of each place."""
import collections, difflib, glob, os, re, sys

args = sys.argv[1:]
here = os.path.dirname(os.path.dirname(os.path.abspath(__file__)))
tree = args.pop(0) if args and os.path.isdir(args[0]) else here
files = sorted(glob.glob(os.path.join(tree, 'crates/*/src/*.rt')))
text = {f: open(f, encoding='utf-8').read() for f in files}


def name(f):
    return os.path.relpath(f, os.path.join(tree, 'crates'))


def code(line):
    return '' if line.lstrip().startswith('//') else line


def grep(pattern, skip=None):
    found = []
    for f in files:
        for n, line in enumerate(text[f].split('\n'), 1):
            if re.search(pattern, code(line)) and not (skip and re.search(skip, line)):
                found.append('%s:%d: %s' % (name(f), n, line.strip()))
    return found


def functions():
    """Each function as (place, name, header, body)."""
    out = []
    for f in files:
        lines = text[f].split('\n')
        n = 0
        while n < len(lines):
            m = re.match(r'(\s*)(pub(\(\w+\))? )?(final )?fn (\w+)', lines[n])
            if m:
                end = n
                opened = False
                while end < len(lines) - 1:
                    line = lines[end].rstrip()
                    opened = opened or line.endswith('{')
                    if opened and line == m.group(1) + '}' or opened and line.endswith('{}') or not opened and line.endswith(';'):
                        break
                    end += 1
                part = lines[n:end + 1]
                brace = next((i for i, l in enumerate(part) if l.rstrip() in (m.group(1) + '{',) or l.rstrip().endswith(' {') and 'ensures' not in l and 'requires' not in l), 0)
                out.append(('%s:%d' % (name(f), n + 1), m.group(5), part[:brace + 1], part[brace + 1:]))
                n = end
            n += 1
    return out


def enums():
    return grep(r'^\s*(pub )?enum ')


def by_hand():
    """Options and results that are taken apart and put together again by hand."""
    return grep(r'^\s*(Some|Ok|Err)\(\w+\) => (Some|None|Ok|Err)\b.*,?$|^\s*None => (None|Ok\(None\)|Err\(.*\)),|^\s*Err\(_\) => (None|0|false|Err\(.*\)),')


def else_errors():
    """A value or a refusal by let-else."""
    found = []
    for f in files:
        lines = text[f].split('\n')
        for n, line in enumerate(lines[:-1]):
            if re.search(r'let (Some|Ok)\(.*\) = .* else \{$', line) and re.search(r'return (Err|None|Ok\(None\))', lines[n + 1]):
                found.append('%s:%d: %s' % (name(f), n + 1, line.strip()))
    return found


def success_flags():
    """Functions that answer by a flag whether they did what they were asked."""
    return [p + ' ' + n for p, n, head, body in functions()
            if re.search(r'\)\s*-> bool', ' '.join(head)) and '&mut' in ' '.join(head)]


def idle_results():
    """Functions that answer a result with no way to fail."""
    return [p + ' ' + n for p, n, head, body in functions()
            if re.search(r'-> Result<\(\), Fail>|-> Result<\(\), AllocError>', ' '.join(head))
            and not any('?' in l or 'Err(' in l for l in body) and not any(re.search(r'^\s+\w+\(.*\)$', l) for l in body)]


def twins():
    """Pairs of functions of the products whose bodies are alike to nine tenths."""
    token = re.compile(r'\w+|[^\s\w]')
    fs = [(p, n, token.findall(' '.join(code(l) for l in body))) for p, n, head, body in functions() if '_tests/' not in p and '/tests.rt' not in p]
    fs = [x for x in fs if len(x[2]) >= 12]
    out = []
    for i, (p, n, a) in enumerate(fs):
        for q, m, b in fs[i + 1:]:
            if min(len(a), len(b)) / max(len(a), len(b)) > 0.8 and difflib.SequenceMatcher(None, a, b, autojunk=False).ratio() >= 0.9:
                out.append('%s %s  and  %s %s' % (p, n, q, m))
    return out


def twin_types():
    """Types of which one has the variants or fields of another."""
    types = []
    for f in files:
        for m in re.finditer(r'(enum|struct) (\w+)[^{;(]*\{\n(.*?)\n\}', text[f], re.S):
            fields = frozenset(re.findall(r'^    (?:pub(?:\(\w+\))? )?(\w+)(?=:| \{|,|\()', m.group(3), re.M))
            if len(fields) > 2:
                types.append((name(f), m.group(2), fields))
    return ['%s %s  and  %s %s' % (a[0], a[1], b[0], b[1]) for i, a in enumerate(types) for b in types[i + 1:]
            if len(a[2] & b[2]) >= 0.75 * max(len(a[2]), len(b[2]))]


def index_loops():
    """Loops over a range, or with a place beside the item."""
    return grep(r'\bfor \(?\w+.* in .*(\.\.|\.enumerate\(\))|\bwhile\b')


def hand_counts():
    """Numbers that a loop counts up by hand."""
    return grep(r'^\s{8,}\w+ (\+= 1|= \w+\.saturating_add\(1\));')


def hand_conversions():
    """Bytes, digits, equality, copies and texts by hand."""
    return grep(r"/ 256|% 256|\* 256|b'0' \+|- b'0'|\.base == 0|\.base != 0|\.check != 0|fn (same|eq|cmp|clone|reply_to|layer_number|side_number|put_number)\b")


def repeated_clauses():
    """Clauses about one argument that stand in three contracts of a crate or more."""
    seen = collections.defaultdict(list)
    for f in files:
        crate = name(f).split('/')[0]
        for n, line in enumerate(text[f].split('\n'), 1):
            m = re.match(r'\s*(requires|ensures)( \w+)? \{ (.*) \}$', line)
            if m:
                seen[crate, m.group(1), re.sub(r'\.(now|old|new)\b', '', m.group(3))].append('%s:%d' % (name(f), n))
    return ['%s %s { %s }: %d times, first %s' % (k[0], k[1], k[2], len(v), v[0]) for k, v in sorted(seen.items()) if len(v) >= 3]


def parameter_groups():
    """Pairs of parameters that go together through three functions of a crate or more."""
    seen = collections.defaultdict(list)
    for p, n, head, body in functions():
        crate = p.split('/')[0]
        if crate.endswith('_tests') or '/tests.rt' in p:
            continue
        line = re.sub(r'ensures.*|requires.*', '', ' '.join(head))
        line = re.sub(r'fn \w+<.*?>\(', 'fn x(', line)
        names = [a for a in re.findall(r'(\w+): ', line) if a not in ('rt', 'f')]
        for i, a in enumerate(names):
            for b in names[i + 1:]:
                seen[crate, a, b].append(n)
    return ['%s: %s and %s in %d: %s' % (k[0], k[1], k[2], len(v), ', '.join(v)) for k, v in sorted(seen.items()) if len(v) >= 3]


def buffers():
    """Arrays of a fixed length that are filled in part, with a length beside."""
    return grep(r'\[0u(8|16|32); \w+\]|\[\w+::default\(\); \w+\]|\[(blank|none); \w+\]|: \[\w+; \d+\],|&mut \[u(8|16|32); \d+\]')


def steps():
    """Switches on a step, tables of functions."""
    return grep(r'\bstep\b.*match|match \w*step|: \[fn\(|\bfn\(\w')


lists = [enums, by_hand, else_errors, success_flags, idle_results, twins, twin_types, index_loops, hand_counts,
         hand_conversions, repeated_clauses, parameter_groups, buffers, steps]
for one in lists:
    if not args or one.__name__ in args:
        found = one()
        print('%s: %d' % (one.__name__, len(found)))
        for line in found:
            print('    ' + line)
