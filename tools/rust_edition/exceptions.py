"""Lists the exceptions to the rules, by name."""

# The crates of the layer, lowest first.
CRATES = '''cedar_ids cedar_keyed_hash cedar_components cedar_uid_sets cedar_graph cedar_terms cedar_entity cedar_children
cedar_entity_maps cedar_entities cedar_slice cedar_dry_run cedar_queries cedar_entity_diff cedar_annotation cedar_scope
cedar_binding cedar_action cedar_body cedar_policy cedar_policy_maps cedar_policy_set_errors cedar_policy_merge
cedar_policy_set cedar_naming cedar_policy_diff cedar_replay cedar_lines cedar_entity_lines cedar_policy_lines
cedar_store cedar_repl
'''.split()

# Calls for which there are several functions with the name: (crate, file, name) and the kind of the result.
CHOICES = {
    ('cedar_replay', 'policies', 'link'): 'result',
    ('cedar_policy_lines', 'making', 'link'): 'result',
    ('cedar_c_stores', 'listing', 'add'): 'memory',
    ('cedar_c_stores', 'reads', 'entity'): 'memory',
    ('cedar_c_stores', 'cached_store', 'entity'): 'memory',
    ('cedar_c_sets', 'set_state', 'link'): 'result',
    ('cedar_deep_copy_policies', 'set', 'link'): 'result',
    ('cedar_c_sets', 'clauses', 'condition'): 'memory',
}

# The end of the result types that stay results even if no error is possible: the callers convert them to statuses.
STATUS_RESULT = ', Reason>'

# Functions that only proofs use, so the package does not have them: (type or file, name).
DROPPED = {('KeyedState', 'new'), ('PolicyMaps', 'body_count'), ('PolicyMaps', 'policy_count'),
           ('fresh', 'count_ids'), ('fresh', 'size'), ('node', 'listed'),
           ('shared_node', 'listed_pointers'), ('store_text', 'next_entity'), ('store_text', 'is_before'),
           ('store_text', 'write_by_walks')}
# Functions that copied parts of a type, which a derived `Clone` replaces.
DROPPED |= {('maps', name) for name in ('copy_of_bodies', 'copy_of_policies', 'copy_of_ids')}
DROPPED |= {('entities', 'copy_of_map'), ('entity', 'copy_of_fields')}
# Functions by which an edit of a part tells what an edit of the store would change. In the package copies of a store share, so
# it edits a copy.
DROPPED |= {('would_change', f'part_change_by_{edit}') for edit in ('add', 'upsert', 'remove')} | {('Entities', 'affected')}
# A function that is written by hand, in `rust/src/handwritten/policy_sets.rs`.
DROPPED |= {('PolicySet', 'from_raw_components')}
# Functions that only the tests of the layer use, so the package does not have them.
ONLY_IN_TESTS = {
    ('PolicyMaps', 'from_raw_components'), ('lists', 'read_policy'),
    ('lists', 'read_policies'), ('maps', 'filter_templates'), ('maps', 'linked_lists'), ('maps', 'link_lists'),
    ('LineStore', 'new'), ('PolicySets', 'new'),
    ('command', 'read_policy_command'), ('making', 'static_policy'), ('making', 'slotted_template'),
    ('Entity', 'with_shared_parents'),
    ('UidSet', 'is_ascending'), ('UidSet', 'retain'), ('err', 'copy_of_uids'),
}
# Functions of `ONLY_IN_TESTS` that the C library uses, functions of the C library that only proofs use, and its files that are dropped.
USED_BY_C = {('Entity', 'with_shared_parents'), ('making', 'static_policy'), ('making', 'slotted_template')}
UNUSED_BY_C = {('Held', 'of_parts'), ('Held', 'into_parts')}
DROPPED_FILES = {('cedar_c', 'parts'), ('cedar_entity_diff', 'parts')}
DROPPED_TYPES = {'Linked', 'Direct', 'Streams'}
DROPPED_IMPLS = {('Linked', 'Drop'), ('Linked', 'Deref'), ('Direct', 'Streams')}
# Implementations that are written by hand, in `rust/src/handwritten/debug.rs`.
WRITTEN_BY_HAND = {(name, 'Debug') for name in ('PolicyID', 'Annotations', 'HasCycle', 'Entities', 'UidSet')}
# Implementations that a `derive` replaces.
DERIVED = {('TemplateValidationError', 'Clone'), ('PolicySetValidationError', 'Clone'), ('PolicyID', 'Clone'), ('Policy', 'Clone'),
           ('PolicyMaps', 'Clone')}
DERIVED |= {(name, 'Clone') for name in ('Entity', 'UidSet', 'Unknown', 'PrincipalOrResourceConstraint', 'TemplateBodyImpl', 'TemplateBody',
                                         'PolicySet', 'Entities', 'Expr')}
DERIVED |= {(name, trait) for name in ('Id', 'AnyId', 'PolicyID') for trait in ('PartialEq', 'Eq', 'PartialOrd', 'Ord', 'Hash')}
DERIVED |= {(name, trait) for name in ('TemplateBody', 'ExtensionValue', 'Annotations') for trait in ('PartialEq', 'Eq')}
DROPPED_IMPLS |= WRITTEN_BY_HAND | DERIVED
# Enums that may get further variants. Errors with the variants of the original do not, so that a `match` over them
# compiles as it does there.
GROWING = {'EntitiesError', 'ExprNode', 'ExprValidationError', 'ParseErrors', 'RunError', 'TalkError'}
# Traits that types derive in addition, so that errors derive `Clone`, `PartialEq` and `Eq`.
MORE_DERIVES = {name: {'Clone', 'PartialEq', 'Eq'} for name in ('NonEmpty', 'MissingTcEdge', 'HasCycle', 'PolicySetDiff')}
# Types whose copies share, and the parts of these.
MORE_DERIVES |= {name: {'Clone'} for name in ('Policy', 'Parts', 'PolicyID', 'PolicyMaps', 'Index', 'Children',
                                         'ContentChange', 'AncestryChange', 'StoreDiff')}
for name, trait in sorted(DERIVED) + [('ExprKind', 'Clone')]:
    MORE_DERIVES[name] = MORE_DERIVES.get(name, set()) | {trait}

# Parameters that only contracts use: (file, function) and names.
UNUSED = {
    ('component_lists', 'add'): {'n'}, ('component_lists', 'add_range'): {'n'}, ('list_order', 'take_all'): {'n'},
    ('components', 'meet'): {'graph', 'i'}, ('close', 'reaches_itself'): {'read'},
    ('close', 'listed_for'): {'read'}, ('close', 'ascends'): {'read'}, ('closed', 'knows_reached'): {'read'},
}

# Public functions with parameters that are anything that can be iterated or read as a text: (type or file, name), and the mode of
# each of these parameters (see `general_parameters.py`).
GENERAL_PARAMETERS = {
    ('Eid', 'new'): {'text': 'into'},
    ('PolicyID', 'from_string'): {'text': 'as_ref'},
    ('Unknown', 'new_untyped'): {'name': 'into'},
    ('Unknown', 'new_with_type'): {'name': 'into'},
    ('Expr', 'val'): {'literal': 'into'},
    ('Expr', 'set'): {'exprs': 'collect'},
    ('Value', 'set'): {'values': 'collect'},
    ('Value', 'record'): {'pairs': 'loop'},
    ('Annotations', 'try_from_iter'): {'pairs': 'pass'},
    ('annotation', 'collected'): {'pairs': 'loop'},
    ('Entity', 'new_with_attr_partial_value'): {'attrs': 'pass', 'tags': 'pass'},
    ('entity', 'fields'): {'pairs': 'loop'},
    ('Entities', 'from_entities'): {'list': 'pass'},
    ('Entities', 'from_entities_with_hasher'): {'list': 'pass'},
    ('incoming', 'shared_all'): {'list': 'loop'},
    ('Entities', 'add_entities'): {'list': 'pass'},
    ('Entities', 'upsert_entities'): {'list': 'pass'},
    ('incoming', 'with_uids'): {'list': 'loop'},
    ('Entities', 'remove_entities'): {'list': 'pass'},
    ('edits', 'remove_and_finalize'): {'list': 'pass'},
    ('lists', 'held_uids'): {'list': 'loop'},
    ('ActionConstraint', 'is_in'): {'euids': 'pass'},
    ('action', 'shared'): {'euids': 'loop'},
    ('PolicySet', 'try_from_iter'): {'policies': 'pass'},
    ('PolicySet', 'try_from_iter_with_hasher'): {'policies': 'pass'},
    ('PolicySet', 'add_all'): {'policies': 'loop'},
    ('entities', 'replay_entities'): {'calls': 'pass'},
    ('entities', 'replay_entities_with_hasher'): {'calls': 'loop'},
}

# Public functions of the layer with shared uids in their signatures, which are `pub(crate)` in the package.
HIDDEN = {('Entity', name) for name in '''with_shared_parents with_parent_set is_descendant_of_shared shared_parents
shared_ancestors add_shared_parent add_shared_ancestors remove_ancestors_of remove_parents_of insert_ancestors_into
add_ancestor_set'''.split()}

# Files whose functions are marked `#[inline]`, because they are called often: for each hash, uid or line.
INLINED = {('cedar_keyed_hash', 'lib'), ('cedar_uid_sets', 'fronts'), ('cedar_store', 'session')}

# The crates of tests, and the crate of their helpers.
TESTS = '''cedar_test_helpers cedar_ids_tests cedar_graph_tests cedar_terms_tests
cedar_store_tests cedar_repl_tests'''.split()

# The crates of the library for C, lowest first.
CALLERS = '''cedar_c_lists cedar_c_trees cedar_c_bodies cedar_c_errors cedar_deep_copy cedar_deep_copy_stores cedar_deep_copy_policies
cedar_c_stores cedar_c_sets cedar_c'''.split()

# The iterators of a file, by name: the expression of the size, whether the size is exact, and the traits to derive.
INNER = 'self.inner.size_hint()'
ITERATORS = {
    ('cedar_action', 'iters'): {
        'EntityIterator': (
            'let count = match self { Self::None => 0, Self::One(_) => 1, Self::Bunch(euids) => euids.len() };'
            ' (count, Some(count))', True, 'Clone, Debug'),
        'ActionTypeNames': ('self.euids.size_hint()', True, 'Clone, Debug'),
    },
    ('cedar_annotation', 'annotation'): {
        'Iter': (INNER, True, 'Clone, Debug'),
        'IntoIter': (INNER, True, 'Debug'),
    },
    ('cedar_entities', 'store_iters'): {
        'Iter': (INNER, True, 'Clone, Debug'),
        'IntoIter': (INNER, True, 'Debug'),
    },
    ('cedar_entity', 'iters'): {
        'Keys': (INNER, True, 'Clone, Debug'),
        'Pairs': (INNER, True, 'Clone, Debug'),
        'Ancestors': (
            'let count = self.current.len() + self.later.len(); (count, Some(count))', True, 'Clone, Debug'),
    },
    ('cedar_policy', 'slots'): {'Slots': (INNER, True, 'Clone, Debug')},
    ('cedar_policy_maps', 'iters'): {
        'Policies': (INNER, True, 'Clone, Debug'),
        'IntoPolicies': (INNER, True, 'Clone, Debug'),
        'AllTemplates': (INNER, True, 'Clone, Debug'),
        'Templates': ('(0, self.inner.size_hint().1)', False, 'Clone, Debug'),
        'StaticPolicies': ('(0, self.inner.size_hint().1)', False, 'Clone, Debug'),
        'SharedBodies': (INNER, True, 'Clone, Debug'),
        'LinkedIds': (
            'let count = usize::from(self.first.is_some()) + self.rest.len(); (count, Some(count))', True,
            'Clone, Debug'),
    },
    ('cedar_scope', 'iters'): {
        'ConstraintTypeNames': (
            'let count = usize::from(self.of_uid.is_some()) + usize::from(self.stated.is_some());'
            ' (count, Some(count))', True, 'Clone, Debug'),
    },
    ('cedar_uid_sets', 'uid_set'): {'Uids': (INNER, True, 'Clone, Debug')},
    ('cedar_uid_sets', 'union'): {
        'Union': (
            '(self.one.len().max(self.other.len()), Some(self.one.len() + self.other.len()))', False, 'Clone, Debug'),
    },
}
