"""Marks public functions that only compute their result with `#[must_use]`."""
import re

# a function that returns a value, with its parameters and the type of its result
SIGNATURE = re.compile(r'( *)pub (?:const )?fn (\w+)(?:<.*?>)?\((.*?)\) -> (.*?)(?: where\b.*)? \{\}?$')
# results that the compiler or their types already mark, and iterators that are marked by their trait
MARKED = re.compile(r"(fmt::)?Result\b|impl (DoubleEnded)?Iterator|Box<dyn Iterator")


def marked(source, public):
    """Returns the text of a formatted file with its marks. `public` has the names of the public types and functions."""
    lines, out, owner = source.split('\n'), [], None
    for at, line in enumerate(lines):
        impl = re.match(r'impl(?:<.*?>)? (\w+)(?:<.*>)? ?(?:\{|where|$)', line)
        if impl or line == '}':
            owner = impl.group(1) if impl else None
        match = re.match(r'( *)pub (?:const )?fn (\w+)', line)
        name = match and (owner if match.group(1) else match.group(2))
        if name in public and is_candidate(lines, at):
            out.append(f'{match.group(1)}#[must_use]')
        out.append(line)
    return '\n'.join(out)


def is_candidate(lines, at):
    """Returns whether a function returns a value that is not marked, and changes no argument."""
    end = at
    while not lines[end].endswith(('{', '{}')):
        end += 1
    signature = SIGNATURE.match(re.sub(r'\s*\n\s*', ' ', '\n'.join(lines[at:end + 1])))
    return bool(signature) and '&mut' not in signature.group(3) and not MARKED.match(signature.group(4))
