"""Gives the store maps and sets whose copies share, and lets a closure take any map of nodes.

The crates of `SHARED` use the maps of `rust/src/handwritten/shared_map.rs` instead of std's. The functions of
`cedar_graph` take any map of nodes and any set of keys, so that stores can use them. A public function of `cedar_graph`
keeps std's maps in its signature: its body moves to a function whose name ends with `_nodes`.
"""
import re

from .texts import on_code

SHARED = {'cedar_children', 'cedar_entity_maps', 'cedar_entities', 'cedar_slice'}
# modules of other crates that use the same maps
SHARED_MODULES = {('cedar_queries', 'members')}
GRAPH = 'cedar_graph'
# the items that the changed text may need
USES = [('crate', 'shared_map'), ('crate', 'shared_map', 'SharedMap'), ('crate', 'shared_map', 'SharedSet'),
        ('crate', 'node_map', 'NodeMap'), ('crate', 'node_map', 'KeySet')]
MAP, SET = 'HashMap<K, V, S>', re.compile(r'HashSet<K, (\w)>')
# a function with its generics, its parameters and result, and its body up to the brace at the start of a line
FUNCTION = re.compile(r'^( *(?:pub(?:\(crate\))? )?fn )(\w+)<(.*?)>(\(.*?) \{\n(.*?)^\}\n', re.M | re.S)


def changed(source, crate, module):
    """Returns the text of a file with its maps changed."""
    if crate in SHARED or (crate, module) in SHARED_MODULES:
        return on_code(source, shared)
    if crate == GRAPH:
        names = re.findall(r'^pub fn (\w+)', source, re.M)
        return FUNCTION.sub(lambda m: general(m, names), source)
    return source


def shared(code):
    """Returns code with the maps and sets whose copies share."""
    code = re.sub(r'\bHashMap\b', 'SharedMap', code)
    code = re.sub(r'\bHashSet\b', 'SharedSet', code)
    return re.sub(r'\bhash_map::', 'shared_map::', code)


def general(match, names):
    """Returns a function that takes any map of nodes and any set of keys."""
    head, name, generics, parameters, body = match.groups()
    if MAP not in parameters and not SET.search(parameters):
        return match.group()
    as_it_was = (generics, parameters)
    for set_name in SET.findall(parameters):
        generics = re.sub(rf'\b{set_name}: BuildHasher\b', f'{set_name}: KeySet<K>', generics)
    parameters = SET.sub(r'\1', parameters)
    if MAP in parameters:
        generics = generics.rstrip().rstrip(',') + ', N: NodeMap<K, V, S>'
        parameters = parameters.replace(MAP, 'N')
    if "<'a" in f'<{generics}' or "'_" in parameters:
        generics, parameters = with_lifetime(generics, parameters)
    body = re.sub(r'\bin nodes \{', 'in nodes.iter() {', body)
    if not head.startswith('pub fn'):
        return f'{head}{name}<{generics}>{parameters} {{\n{body}}}\n'
    body = re.sub(rf'\b({"|".join(names)})\(', r'\1_nodes(', body)
    passed = ', '.join(re.findall(r'(\w+): ', parameters.split('->')[0]))
    generics_before, parameters_before = as_it_was
    return (f'{head}{name}<{generics_before}>{parameters_before} {{\n    {name}_nodes({passed})\n}}\n\n'
            f'// Does what `{name}` does, for any map of nodes.\n'
            f'pub(crate) fn {name}_nodes<{generics}>{parameters} {{\n{body}}}\n')


def with_lifetime(generics, parameters):
    """Lets keys and nodes live as long as the references in the result."""
    if "'_" in parameters:
        generics = "'a, " + generics.lstrip()
        parameters = parameters.replace("'_", "'a").replace('&N', "&'a N")
        generics = re.sub(r'(\bK: [^,]*)', r"\1 + 'a", generics)
    return re.sub(r'(\bV: [^,]*)', r"\1 + 'a", generics), parameters
