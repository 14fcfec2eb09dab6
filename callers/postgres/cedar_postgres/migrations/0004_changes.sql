-- The functions that write. A change is one statement: it holds the row of its tenant only while the server works.

-- Creates a tenant without entities and policies. Returns false if it exists.
CREATE FUNCTION cedar.create_tenant(new_tenant bigint, new_mode text, new_is_partial boolean) RETURNS boolean
LANGUAGE plpgsql
SET search_path = pg_catalog, pg_temp
AS $$
BEGIN
    PERFORM set_config('cedar.tenant', new_tenant::text, true);
    INSERT INTO cedar.tenants (tenant, mode, is_partial) VALUES (new_tenant, new_mode, new_is_partial)
        ON CONFLICT DO NOTHING;
    RETURN FOUND;
END
$$;

-- Deletes everything of a tenant. Returns false if it does not exist.
CREATE FUNCTION cedar.drop_tenant(old_tenant bigint) RETURNS boolean
LANGUAGE plpgsql
SET search_path = pg_catalog, pg_temp SET enable_seqscan = off
AS $$
DECLARE
    existed boolean;
BEGIN
    PERFORM set_config('cedar.tenant', old_tenant::text, true);
    DELETE FROM cedar.tenants WHERE tenant = old_tenant;
    existed := FOUND;
    DELETE FROM cedar.parents WHERE tenant = old_tenant;
    DELETE FROM cedar.entities WHERE tenant = old_tenant;
    DELETE FROM cedar.policies WHERE tenant = old_tenant;
    DELETE FROM cedar.texts WHERE tenant = old_tenant;
    DELETE FROM cedar.changes WHERE tenant = old_tenant;
    PERFORM pg_notify('cedar', old_tenant || ' 0');
    RETURN existed;
END
$$;

-- Takes the row of a tenant until the transaction ends, so that no other change can be first.
CREATE FUNCTION cedar.lock_tenant(of_tenant bigint) RETURNS void
LANGUAGE plpgsql
SET search_path = pg_catalog, pg_temp SET lock_timeout = '2s'
AS $$
BEGIN
    PERFORM set_config('cedar.tenant', of_tenant::text, true);
    PERFORM FROM cedar.tenants WHERE tenant = of_tenant FOR UPDATE;
END
$$;

-- Applies a change that the library has accepted at the version `expected`. Returns an outcome and a version:
--
-- - `done`: the change is applied, and made this version.
-- - `repeated`: a change with this key was applied before, and made this version. Nothing is written.
-- - `conflict`: the tenant has this version, not the expected one. Nothing is written.
-- - `leaving`: the tenant is being moved to another server. Nothing is written.
-- - `missing`: the tenant is not on this server. Nothing is written.
CREATE FUNCTION cedar.apply(of_tenant bigint, expected bigint, change_key text, change jsonb)
RETURNS TABLE (outcome text, version bigint)
LANGUAGE plpgsql
SET search_path = pg_catalog, pg_temp SET jit = off SET enable_seqscan = off SET plan_cache_mode = force_generic_plan
SET lock_timeout = '2s'
AS $$
#variable_conflict use_column
DECLARE
    new_version bigint;
    earlier bigint;
BEGIN
    PERFORM set_config('cedar.tenant', of_tenant::text, true);
    UPDATE cedar.tenants SET version = tenants.version + 1
        WHERE tenant = of_tenant AND state = 'here' AND tenants.version = expected
        RETURNING tenants.version INTO new_version;
    SELECT changes.version INTO earlier FROM cedar.changes WHERE tenant = of_tenant AND key = change_key;
    IF earlier IS NOT NULL THEN
        UPDATE cedar.tenants SET version = expected WHERE tenant = of_tenant AND new_version IS NOT NULL;
        RETURN QUERY SELECT 'repeated', earlier;
        RETURN;
    ELSIF new_version IS NULL THEN
        RETURN QUERY SELECT CASE state WHEN 'here' THEN 'conflict' ELSE 'leaving' END, tenants.version
            FROM cedar.tenants WHERE tenant = of_tenant;
        IF NOT FOUND THEN
            RETURN QUERY SELECT 'missing', 0::bigint;
        END IF;
        RETURN;
    END IF;
    INSERT INTO cedar.changes (tenant, version, key, removed, uids, ids) SELECT of_tenant, new_version, change_key,
        cedar.text_array(change -> 'touched' -> 'removed'), cedar.text_array(change -> 'touched' -> 'uids'),
        cedar.text_array(change -> 'touched' -> 'ids');
    INSERT INTO cedar.texts SELECT of_tenant, long.key, long.value FROM jsonb_each_text(change -> 'texts') AS long
        ON CONFLICT DO NOTHING;
    PERFORM cedar.write_entities(of_tenant, change);
    PERFORM cedar.write_policies(of_tenant, new_version, change);
    -- One version more, one less.
    DELETE FROM cedar.changes WHERE tenant = of_tenant AND changes.version = new_version - 1000;
    PERFORM pg_notify('cedar', of_tenant || ' ' || new_version);
    RETURN QUERY SELECT 'done', new_version;
END
$$;

-- Returns the texts of a JSON array, or NULL for null.
CREATE FUNCTION cedar.text_array(texts jsonb) RETURNS text[] LANGUAGE sql IMMUTABLE AS $$
    SELECT CASE jsonb_typeof(texts) WHEN 'array' THEN ARRAY(SELECT jsonb_array_elements_text(texts)) END
$$;

-- Removes entities, also from the parents of other entities. Then writes new entities and those that differ. `repaired`
-- has entities of which only ancestors change.
CREATE FUNCTION cedar.write_entities(of_tenant bigint, change jsonb) RETURNS void
LANGUAGE plpgsql
AS $$
DECLARE
    removed text[] := cedar.text_array(change -> 'removed');
    edges jsonb := (change -> 'entities') || (change -> 'repaired');
BEGIN
    IF cardinality(removed) > 0 THEN
        DELETE FROM cedar.parents WHERE tenant = of_tenant AND child = ANY (removed);
        DELETE FROM cedar.parents WHERE tenant = of_tenant AND parent = ANY (removed);
        DELETE FROM cedar.entities WHERE tenant = of_tenant AND uid = ANY (removed);
    END IF;
    IF jsonb_array_length(edges) = 0 THEN
        RETURN;
    END IF;
    INSERT INTO cedar.entities AS stored (tenant, uid, attributes, tags, indirect)
        SELECT of_tenant, item ->> 'uid', item -> 'attributes', item -> 'tags', cedar.text_array(item -> 'indirect')
        FROM jsonb_array_elements(change -> 'entities') AS item
        ON CONFLICT (tenant, uid) DO UPDATE
        SET attributes = EXCLUDED.attributes, tags = EXCLUDED.tags, indirect = EXCLUDED.indirect
        WHERE (stored.attributes, stored.tags, stored.indirect)
            IS DISTINCT FROM (EXCLUDED.attributes, EXCLUDED.tags, EXCLUDED.indirect);
    UPDATE cedar.entities AS stored SET indirect = cedar.text_array(item -> 'indirect')
        FROM jsonb_array_elements(change -> 'repaired') AS item
        WHERE stored.tenant = of_tenant AND stored.uid = item ->> 'uid';
    DELETE FROM cedar.parents AS edge USING jsonb_array_elements(edges) AS item
        WHERE edge.tenant = of_tenant AND edge.child = item ->> 'uid' AND NOT (item -> 'parents') ? edge.parent;
    INSERT INTO cedar.parents SELECT of_tenant, item ->> 'uid', parent
        FROM jsonb_array_elements(edges) AS item, jsonb_array_elements_text(item -> 'parents') AS parent
        ON CONFLICT DO NOTHING;
END
$$;

-- Removes policies, then inserts policies after all others.
CREATE FUNCTION cedar.write_policies(of_tenant bigint, new_version bigint, change jsonb) RETURNS void
LANGUAGE plpgsql
AS $$
BEGIN
    IF jsonb_array_length(change -> 'removed_ids') > 0 THEN
        DELETE FROM cedar.policies WHERE tenant = of_tenant AND id = ANY (cedar.text_array(change -> 'removed_ids'));
    END IF;
    IF jsonb_array_length(change -> 'policies') > 0 THEN
        INSERT INTO cedar.policies (tenant, id, version, place, kind, effect, principal, action, resource, annotations,
                                    clause, template, slots)
            SELECT of_tenant, item ->> 'id', new_version, place, item ->> 'kind', item ->> 'effect',
                item -> 'principal', item -> 'action', item -> 'resource', item -> 'annotations',
                nullif(item -> 'clause', 'null'),
                item ->> 'template', item -> 'slots'
            FROM jsonb_array_elements(change -> 'policies') WITH ORDINALITY AS listed (item, place);
    END IF;
END
$$;
