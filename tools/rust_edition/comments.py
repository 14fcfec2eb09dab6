"""Comments: what they say of memory, of contracts and of proofs is not said of the package.

A sentence that speaks of these goes. Where one of several parts between semicolons does, that part goes. What is left
of a paragraph is filled anew. Of the comment at the head of a crate the first paragraph stays."""
import re
import textwrap

OFF_TOPIC = re.compile('|'.join([
    r'\bmemory\b', r'\b[Aa]llocat(?:ion|or)s?\b', 'AllocError', '`Memory`', '::Memory', '`_?alloc', r'\b[Cc]ontracts?\b',
    r'\bghost', r'\.antt\b', r'\bspecs/', r'\b[Pp]roofs?\b', r'\b[Pp]roved?\b', 'No effect at run time']))
# Replacements that are applied before sentences are filtered.
REWRITTEN = [
    ('The default hasher has a fixed seed\\. If untrusted parties choose the (?:uids|names), they can force collisions and slow '
     '(?:every call|this function) down\\. Use (\\[`[^`]*`\\]) with a randomly keyed builder in that case\\.',
     r'The default hasher has a key that is drawn once for the process. \1 takes another.'),
    ('The (stores|sets|maps) hash (uids|ids) with a fixed seed\\. If untrusted parties choose the (?:uids|ids), use (\\[`[^`]*`\\]) '
     'with a randomly keyed builder\\.', r'The \1 hash \2 with a key that is drawn once for the process. \3 takes another.'),
    (r'\[`Entity::is_descendant_of_shared`\]', '`Entity::is_descendant_of`'),
    # names that rustdoc does not find, or finds twice
    (r'\[`Template::slots`\]', '`Template::slots`'),
    (r'\[`slice`\](?:\([\w:]+\))?', '`slice`'),
    (r"(?<!project\'s )`docs/PROGRAM\.md`", "the project's `docs/PROGRAM.md`"),
    (r'\bRc\b', 'Arc'),
]
# Sentences that are not true of the package.
UNTRUE = ['The original gives hashed sets.', 'In the original this is a conversion by `From`.',
          'The original collects annotations from any iterator of pairs.']
LINE = re.compile(r'^(\s*)(///|//!|//)(?: (.*)|)$')


def without_proofs(source, is_head):
    """Returns the text without sentences of comments that are not about the package."""
    out, lines, k = [], source.split('\n'), 0
    while k < len(lines):
        m = LINE.match(lines[k])
        if not m:
            out.append(lines[k])
            k += 1
            continue
        block = []
        while k < len(lines):
            n = LINE.match(lines[k])
            if not n or n.group(2) != m.group(2) or n.group(1) != m.group(1):
                break
            block.append(n.group(3) or '')
            k += 1
        out += comment_lines(block, m.group(1) + m.group(2), is_head and m.group(2) == '//!')
    return '\n'.join(out)


def comment_lines(block, mark, is_head):
    """Returns the lines of a comment."""
    remaining = []
    for paragraph in paragraphs(block):
        lines = filtered(paragraph, len(mark))
        if lines:
            remaining.append(lines)
        elif remaining and paragraph[0].startswith('- ') and remaining[-1][-1].endswith(';'):
            remaining[-1] = remaining[-1][:-1] + [remaining[-1][-1][:-1] + '.']
        if is_head:
            break
    remaining = with_content(remaining)
    out = []
    for k, lines in enumerate(remaining):
        if k and not (lines[0].startswith('- ') and remaining[k - 1][0].startswith('- ')):
            out.append(mark)
        out += [f'{mark} {x}'.rstrip() for x in lines]
    return out


FUNCTION = re.compile(r'^\s*(?:pub(?:\([a-z]+\))? )?(?:const )?fn \w+')


def without_error_sections(source):
    """Returns the text without the sections `# Errors` of functions that return no `Result` in the package."""
    lines, out, k = source.split('\n'), [], 0
    while k < len(lines):
        if not lines[k].strip().startswith('///'):
            out.append(lines[k])
            k += 1
            continue
        end = k
        while end < len(lines) and lines[end].strip().startswith('///'):
            end += 1
        at = end
        while at < len(lines) and lines[at].strip().startswith('#['):
            at += 1
        block = lines[k:end]
        if at < len(lines) and FUNCTION.match(lines[at]) and not re.search(r'->[^{;]*Result\b', head_at(lines, at)):
            block = without_section(block)
        out += block
        k = end
    return '\n'.join(out)


def head_at(lines, at):
    """Returns the signature that begins at a line."""
    end = at
    while end < len(lines) - 1 and not re.search(r'[{;]\s*$', lines[end]):
        end += 1
    return ' '.join(lines[at:end + 1])


def without_section(block):
    """Returns a comment without its section `# Errors`."""
    out, inside = [], False
    for line in block:
        if re.match(r'^\s*/// # ', line):
            inside = line.strip() == '/// # Errors'
        if not inside:
            out.append(line)
    while out and out[-1].strip() == '///':
        out.pop()
    return out


def with_content(remaining):
    """Removes headings that are not followed by a paragraph."""
    return [lines for k, lines in enumerate(remaining)
            if not lines[0].startswith('# ') or (k + 1 < len(remaining) and not remaining[k + 1][0].startswith('# '))]


def paragraphs(block):
    """Returns the paragraphs, items of lists and fenced texts, each as a list of lines."""
    out, current, fenced = [], [], False
    for line in block:
        if line.startswith('```'):
            fenced = not fenced
            current.append(line)
        elif fenced:
            current.append(line)
        elif not line.strip():
            out.append(current)
            current = []
        elif line.startswith('- '):
            out.append(current)
            current = [line]
        else:
            current.append(line)
    out.append(current)
    return [p for p in out if p]


def filtered(paragraph, indent):
    """Filters the sentences of a paragraph, and fills it again if some were removed."""
    if any(x.startswith(('```', '#', '|')) for x in paragraph):
        return paragraph
    joined_text = ' '.join(x.strip() for x in paragraph)
    bullet = '- ' if joined_text.startswith('- ') else ''
    filtered_text = filtered_sentences(joined_text[len(bullet):])
    if filtered_text == joined_text[len(bullet):]:
        return paragraph
    if not filtered_text:
        return []
    return textwrap.wrap(bullet + filtered_text, 119 - indent, subsequent_indent=' ' * len(bullet), break_long_words=False,
                         break_on_hyphens=False)


def filtered_sentences(joined_text):
    changed = joined_text
    for a, b in REWRITTEN:
        changed = re.sub(a, b, changed)
    out = []
    for sentence in re.split(r'(?<=[.])\s+(?=[A-Z`\[0-9])', changed):
        if sentence in UNTRUE:
            continue
        if OFF_TOPIC.search(sentence):
            sentence = filtered_parts(sentence)
        if sentence:
            out.append(sentence)
    return ' '.join(out)


def filtered_parts(sentence):
    """Returns the parts between semicolons that are not about memory or proofs."""
    parts = re.split(r';\s+', sentence.rstrip('.'))
    remaining = [p for p in parts if not OFF_TOPIC.search(p)]
    if not remaining or len(parts) == 1:
        return ''
    text = '; '.join(remaining)
    return (text[0].upper() if text[0].islower() and not text.startswith('`') else text[0]) + text[1:].rstrip('.') + '.'


# Words that a generated file must not contain.
FORBIDDEN = re.compile('|'.join([
    r'memory\b', 'alloc(?!at)', r'\bcontract', r'\bproof', r'\bprove[sdr]?\b', r'\bghost\b', 'fixed seed', r'\bGlobal\b',
    r'^\s*(requires|ensures)\b']), re.I)


def faults(name, source):
    """Returns a message for each line of a generated file that is about memory, contracts or proofs."""
    return [f'rust_edition: {name} has a comment on memory, contracts or proofs: {line.strip()}'
            for line in source.split('\n')[1:] if FORBIDDEN.search(line)]
