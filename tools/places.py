#!/usr/bin/env python3
"""Counts the places of old forms, by the eight points of docs/DESIGN-PASS.md, in crates/*/src: run it at the top. `places.py 3` prints one point, `-q` numbers only."""
import collections, glob, re, sys

quiet = '-q' in sys.argv
wanted = [int(a) for a in sys.argv[1:] if a.isdigit()] or list(range(1, 9))
text = {f: open(f, encoding='utf-8').read().splitlines() for f in sorted(glob.glob('crates/*/src/**/*.rt', recursive=True))}


def show(f, i, s):
    return '%s:%d %s' % (f.replace('crates/', '').replace('/src/', '/'), i, ' '.join(s.split())[:150])


def code(s):
    return re.sub(r'//.*', '', s)


def grep(pattern):
    return [show(f, i, s) for f in text for i, s in enumerate(text[f], 1) if re.search(pattern, code(s))]


def items(f, word):
    """(line, name, head up to the brace, the whole item) of each fn, struct or enum of a file."""
    rows = text[f]
    for i, s in enumerate(rows):
        m = re.match(r'( *)(?:pub(?:\([a-z]+\))? )?(?:extern "C" )?%s (\w+)' % word, s)
        if not m:
            continue
        j = i
        while j < len(rows) and not (rows[j].startswith(m.group(1) + '}') and j > i) and not (j == i and re.search(r'[;}]$', s)):
            j += 1
        block = rows[i:j + 1]
        head = []
        for r in block:
            if re.match(r' *\{$', r):
                break
            head.append(code(r))
            if r.rstrip().endswith('{') and word == 'fn' and 'requires' not in r and 'ensures' not in r:
                break
        yield i + 1, m.group(2), ' '.join(' '.join(head).split()), [code(r) for r in block]


def signature(head):
    return re.split(r' (?:requires|ensures) ', head)[0]


def clauses(head):
    """The conjuncts of the clauses of a head, by their text, with the names .old, .new and .now taken off."""
    out = set()
    for part in re.split(r' (?:requires|ensures)(?: \w+)? \{', head)[1:]:
        body = part.rsplit('}', 1)[0]
        depth, now, found = 0, '', []
        for c in body + '×':
            depth += (c in '([{') - (c in ')]}')
            if c == '×' and depth == 0:
                found.append(now)
                now = ''
            else:
                now += c
        for x in found:
            x = ' '.join(x.split())
            while x.startswith('(') and x.endswith(')'):
                x = x[1:-1].strip()
            if x:
                out.add(re.sub(r'\.(old|new|now|entry)\b', '', x))
    return out


def params(head):
    m = re.search(r'\((.*?)\)(?: ->|$)', signature(head))
    if not m:
        return []
    found, depth, now = [], 0, ''
    for c in m.group(1) + ',':
        depth += (c in '(<[') - (c in ')>]')
        if c == ',' and depth == 0:
            if ':' in now:
                found.append(re.sub(r"mut |'\w+ ", '', ' '.join(now.split())))
            now = ''
        else:
            now += c
    return found


def point1():
    out = []
    for f in text:
        for i, name, head, block in items(f, 'enum'):
            bad = [v for v in re.findall(r'^    (\w+)', '\n'.join(block), re.M) if re.match(r'Broken|Refused|Bad|None|No[A-Z]|Not[A-Z]|Nothing|Mixed|Faulty|Unused|Double[A-Z]|TooLong', v)]
            if bad:
                out.append(show(f, i, 'enum %s: %s' % (name, ', '.join(bad))))
        for i, name, head, block in items(f, 'struct'):
            for k, r in enumerate(block):
                if re.match(r' +(pub(\(crate\))? )?(number: u(8|32)|log: u32|logs: u32|kind: u\d+|bit: u8|loose: u8|alike: u64|dead: u8|failed: bool|is_going: bool|double: bool|allowed: bool|of_data: bool|with_data: bool)', r):
                    out.append(show(f, i + k, 'struct %s: %s' % (name, r)))
        for i, name, head, block in items(f, 'fn'):
            s = signature(head)
            if re.search(r'-> (u8|u32|i32|Result<\w+, i32>)$', s.split(' where ')[0]):
                out.append(show(f, i, 'answers a number: ' + s))
            elif re.search(r'number: u(8|32)\b|error: i32|log: usize|row: usize|with_data: bool|of_data: bool|kind: u16', s):
                out.append(show(f, i, 'takes a number or a flag: ' + s))
        for i, s in enumerate(text[f], 1):
            if re.search(r'^(pub )?const E[A-Z]+: i32|const NOT_TEXT', s):
                out.append(show(f, i, s))
            if re.match(r' *//.*(8 where|16 where|past the last where|one past the slice|place itself if|that position|0 where none|past the row|if `args` is missing|, or 0\b|1 or 2, and|0 and 0 if)', s):
                out.append(show(f, i, s))
    return out


def shape(block):
    body = '\n'.join(block)
    body = body[body.find('\n{') if '\n{' in body else 0:]
    body = re.sub(r'\b\w+::', '', body)
    body = re.sub(r'\b0x[0-9a-f]+|\b\d[\d_]*\b', '0', body)
    keep = {'if', 'else', 'while', 'for', 'in', 'return', 'let', 'mut', 'match', 'as', 'self', 'true', 'false'}
    return re.sub(r'\b[A-Za-z_]\w*\b', lambda m: m.group(0) if m.group(0) in keep else 'x', re.sub(r'b"[^"]*"', 'x', ' '.join(body.split())))


def point2():
    groups = collections.defaultdict(list)
    for f in text:
        for i, name, head, block in items(f, 'fn'):
            if len(block) > 3:
                groups[shape(block)].append(show(f, i, 'fn ' + name))
        for i, name, head, block in items(f, 'struct'):
            fields = re.findall(r'\w+: [^,]+', ' '.join(block))
            groups['struct ' + ', '.join(re.sub(r'^pub ', '', x) for x in fields)].append(show(f, i, 'struct ' + name))
        for i, s in enumerate(text[f], 1):
            if re.search(r'/ 256 % 256|\+ 256 \*', code(s)):
                groups['a number in bytes, by hand'].append(show(f, i, s))
    names = collections.defaultdict(list)
    for f in text:
        for i, name, head, block in items(f, 'fn'):
            s = signature(head)
            answer = s.split(') -> ')[1] if ') -> ' in s else ''
            types = frozenset(x.split(': ')[1] for x in params(head) if x.split(': ')[1] not in ('usize', 'u64', 'u8'))
            names[name].append((answer, types, show(f, i, 'fn %s (one name)' % name)))
    for f in text:
        for i, s in enumerate(text[f], 1):
            if re.search(r'\bnext_of\(e\)', code(s)):
                groups['a loop over entries'].append(show(f, i, s))
            if re.search(r'if (\w+) < (\w+) \{ (\1|\2|0) \} else', code(s)) or re.match(r' *fn (least|at_most|room|distance|following|shorter)\b', s):
                groups['the lesser, or what is left'].append(show(f, i, s))
    out = []
    for k in groups:
        if len(groups[k]) > 1:
            out += groups[k]
    seen = {x.split(' ')[0] for x in out}
    for n in names:
        for answer, types, x in names[n]:
            like = [y for y in names[n] if y[2] != x and (y[0] == answer or y[1] & types)]
            if like and n != 'main' and x.split(' ')[0] not in seen:
                out.append(x)
    return out


def point3():
    return grep(r"^ *('\w+: )?(while|loop)\b") + [x for x in grep(r'^ *for \w+ in 0\.\.')]


def point4():
    return grep(r'keys::same_key\(|\bsame_key\(|keys::compare\(|enum Order|is_phase\(|phase_code\(|phase_of\(|frame::bit\(|fn bit\(|\bleast\(|at_most\(|fn room|fn distance|fn following|number_of\(|refusal\(|put_decimal\(|put_hex\(|put_negative\(|fn spell|fn glyph|fn digit|fn (first|free|fresh|start|none)\(|Err\(error\) => Err|Ok\(n\) => Ok|fn tell|in_numbers\(|fn shorter|strings_keys\(') + \
        grep(r'^ *let (\w+) = \w+\.\1;|^ *(\w+): (self|state|walk|j|x|how|told|run)\.\2,') + \
        grep(r'let mut next = (self|run|walk);|let mut outer = walk;|text::put\(|files::write\(|^ *say_counted\(|^ *say\(b|^ *write(_decimal)?\(to|/ 256 % 256|\+ 256 \*|as u(8|16|32|64)\b.*\* ?256|Err\(_\) => (0|false)')


def point5():
    facts, groups = collections.defaultdict(list), collections.defaultdict(set)
    for f in text:
        for i, name, head, block in items(f, 'fn'):
            for x in clauses(head):
                facts[x].append(show(f, i, name))
            p = params(head)
            for a in range(len(p)):
                for b in range(a + 1, len(p)):
                    groups[(p[a], p[b])].add(show(f, i, name))
    out = []
    for x in sorted(facts, key=lambda x: -len(facts[x])):
        if len(facts[x]) > 2:
            out.append('%d contracts: %s [%s]' % (len(facts[x]), x, ', '.join(facts[x])))
    for p in sorted(groups, key=lambda p: -len(groups[p])):
        if len(groups[p]) > 2:
            out.append('%d lists: %s + %s [%s]' % (len(groups[p]), p[0], p[1], ', '.join(sorted(groups[p]))))
    return out


def point6():
    return grep(r'\[(0u8|0u16|Slot::free\(\)|false|coil|free|opening.*); [\w:]+\]|: \[\w+; [\w:]+\]|starts: &(mut )?\[u16\]|\b(low|high)\b.*=.*\bmid\b|row_of\(|say_row\(|put_row\(|put_sign\(|fn \w+\(.*out: &mut (\[u8\]|Text), \w+: usize') + grep(r'^ *(held|length|depth|count|pending|active): (usize|u8),')


def point7():
    out = []
    for f in text:
        for i, name, head, block in items(f, 'fn'):
            body = '\n'.join(block)
            arms = len(re.findall(r'=> ', body))
            tests = len(re.findall(r'^ *(?:\} else )?if .*(?:==|!=|has_key|same_key|is_\w+\(|try_rule)', body, re.M)) + len(re.findall(r'try_rule\(', body))
            leaves = len(re.findall(r'^ *(?:\} else )?if .*\{\n(?: *[^\n]*\n)?? *(?:return|[\w:]+\()', body, re.M))
            if arms >= 3 or tests >= 3 or leaves >= 2:
                out.append(show(f, i, 'fn %s: %d arms, %d tests' % (name, arms, tests)))
    return out


def point8():
    walks = sorted(glob.glob('crates/*/proofs/**/Proof.antt', recursive=True))
    out = ['walk ' + w for w in walks]
    word = set('ℕ Bool List Type true false cond not length get_or set take drop min eqb ltb leb beq zero suc replicate reverse map fold arith refl'.split())
    for f in sorted(glob.glob('crates/*/proofs/*.antt')):
        for i, s in enumerate(open(f, encoding='utf-8').read().splitlines(), 1):
            m = re.match(r"(?:pub )?([\w'-]+) : (.*)$", s)
            if not m or not re.search('→|≡', m.group(2)):
                continue
            bound = set(re.findall(r"[\w'₀₁₂-]+(?=[\w'₀₁₂ -]* :)", m.group(2)))
            used = {w for w in re.findall(r"[A-Za-z_ℕ][\w'₀₁₂-]*(?:\.\w+)*", m.group(2))}
            if not {w for w in used if w not in word and w not in bound and not re.match(r'^\w$', w)}:
                out.append('general lemma %s:%d %s' % (f.replace('crates/', '').replace('/proofs/', '/'), i, s[:150]))
    return out


names = {1: 'own Option or Result, flags and numbers', 2: 'twins', 3: 'loops by hand', 4: 'equality, order, copying, conversion, printing',
         5: 'facts and parameters that repeat', 6: 'buffers with lengths, parallel arrays, tables', 7: 'switches', 8: 'walks and general lemmas'}
for n in wanted:
    found = globals()['point%d' % n]()
    print('point %d, %s: %d' % (n, names[n], len(found)))
    if not quiet:
        for x in found:
            print('   ' + x)
