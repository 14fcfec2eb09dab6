-- The tables. Each key begins with the tenant. Texts are compared by their bytes, and each uid has only one spelling,
-- so equal texts are equal uids. `encoding.py` describes the texts and the JSON.

-- The tenants of this server. Every change locks the row of its tenant first, so this row orders the changes. Its
-- version is the token that readers show. Its state is the fence of a move.
CREATE TABLE cedar.tenants (
    tenant bigint PRIMARY KEY,
    state text NOT NULL DEFAULT 'here' CHECK (state IN ('here', 'leaving')),
    version bigint NOT NULL DEFAULT 1,
    mode text NOT NULL DEFAULT 'compute' CHECK (mode IN ('compute', 'enforce', 'assume')),
    is_partial boolean NOT NULL DEFAULT false
);

-- `indirect` has the ancestors that are not parents. In the mode `compute` it is empty: they follow from the parents.
CREATE TABLE cedar.entities (
    tenant bigint NOT NULL,
    uid text COLLATE "C" NOT NULL,
    attributes jsonb NOT NULL CHECK (jsonb_typeof(attributes) = 'object'),
    tags jsonb NOT NULL CHECK (jsonb_typeof(tags) = 'object'),
    indirect text[] COLLATE "C" NOT NULL,
    PRIMARY KEY (tenant, uid)
);

-- A child is an entity. A parent need not be one.
CREATE TABLE cedar.parents (
    tenant bigint NOT NULL,
    child text COLLATE "C" NOT NULL,
    parent text COLLATE "C" NOT NULL,
    PRIMARY KEY (tenant, child, parent),
    FOREIGN KEY (tenant, child) REFERENCES cedar.entities ON DELETE CASCADE
);
CREATE INDEX parents_by_parent ON cedar.parents (tenant, parent);

-- Static policies, templates and links share their ids. `version` and `place` are the insertion order: the change that
-- inserted the policy, and its place in that change. A link has the body of its template, and none of its own.
CREATE TABLE cedar.policies (
    tenant bigint NOT NULL,
    id text COLLATE "C" NOT NULL,
    version bigint NOT NULL,
    place bigint NOT NULL,
    kind text NOT NULL CHECK (kind IN ('static', 'template', 'link')),
    effect text CHECK (effect IN ('permit', 'forbid')),
    principal jsonb,
    action jsonb,
    resource jsonb,
    annotations jsonb,
    clause jsonb CHECK (kind <> 'link' OR clause IS NULL),
    template text COLLATE "C",
    slots jsonb,
    PRIMARY KEY (tenant, id),
    FOREIGN KEY (tenant, template) REFERENCES cedar.policies,
    CHECK (num_nulls(effect, principal, action, resource, annotations) = CASE kind WHEN 'link' THEN 5 ELSE 0 END),
    CHECK (num_nulls(template, slots) = CASE kind WHEN 'link' THEN 0 ELSE 2 END)
);
CREATE INDEX links_by_template ON cedar.policies (tenant, template) WHERE template IS NOT NULL;

-- The uids and ids that are too long for a row of an index, by their keys. A text with a key never changes.
CREATE TABLE cedar.texts (
    tenant bigint NOT NULL,
    key text COLLATE "C" NOT NULL,
    text text NOT NULL,
    PRIMARY KEY (tenant, key)
);

-- What each of the last versions of a tenant changed. A cache with an older version reads only that. `key` is the
-- idempotency key of the change. The lists are NULL if the change affected too much to list.
CREATE TABLE cedar.changes (
    tenant bigint NOT NULL,
    version bigint NOT NULL,
    key text NOT NULL,
    at timestamptz NOT NULL DEFAULT clock_timestamp(),
    removed text[] COLLATE "C",
    uids text[] COLLATE "C",
    ids text[] COLLATE "C",
    PRIMARY KEY (tenant, version),
    UNIQUE (tenant, key)
);
