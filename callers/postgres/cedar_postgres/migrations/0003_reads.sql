-- The functions that read. Each is one statement for its caller: it sets the tenant, and sees one state of the tables.
-- Each lookup uses an index, and JIT compilation would take longer than the query.

-- Returns rows of a tenant. There is no row if the tenant is not on this server.
--
-- - `tenant`: its version, state and mode, and which of the other rows are complete.
-- - `policy`: without `since` all policies in insertion order, otherwise those that changed after the version `since`.
-- - `entity`: with `uids` these entities and all their ancestors. Otherwise all entities, at most `row_limit`, or those
--   that changed after the version `since`.
-- - `changed`: the uids and ids that changed after the version `since`, and the uids that were removed.
--
-- If the changes after `since` are not listed, the result is the one without `since`.
CREATE FUNCTION cedar.read(of_tenant bigint, since bigint, uids text[], row_limit bigint)
RETURNS TABLE (part text, content jsonb)
LANGUAGE plpgsql STABLE
SET search_path = pg_catalog, pg_temp SET jit = off SET enable_seqscan = off SET plan_cache_mode = force_generic_plan
AS $$
DECLARE
    found_tenant cedar.tenants;
    listed bigint;
    all_removed text[];
    all_uids text[];
    all_ids text[];
BEGIN
    PERFORM set_config('cedar.tenant', of_tenant::text, true);
    SELECT * INTO found_tenant FROM cedar.tenants WHERE tenant = of_tenant;
    IF NOT FOUND THEN
        RETURN;
    END IF;
    IF since < found_tenant.version THEN
        SELECT count(*) FILTER (WHERE change.uids IS NOT NULL AND change.ids IS NOT NULL AND change.removed IS NOT NULL)
            INTO listed FROM cedar.changes AS change WHERE change.tenant = of_tenant AND change.version > since;
        IF listed = found_tenant.version - since THEN
            SELECT ARRAY(SELECT DISTINCT unnest(change.removed) FROM cedar.changes AS change
                         WHERE change.tenant = of_tenant AND change.version > since),
                   ARRAY(SELECT DISTINCT unnest(change.uids) FROM cedar.changes AS change
                         WHERE change.tenant = of_tenant AND change.version > since),
                   ARRAY(SELECT DISTINCT unnest(change.ids) FROM cedar.changes AS change
                         WHERE change.tenant = of_tenant AND change.version > since)
                INTO all_removed, all_uids, all_ids;
        ELSE
            since := NULL;
        END IF;
    ELSIF since > found_tenant.version THEN
        since := found_tenant.version;  -- this server is behind: it has nothing new
    END IF;
    RETURN QUERY SELECT 'tenant', to_jsonb(found_tenant) || jsonb_build_object('complete', since IS NULL);
    IF all_uids IS NOT NULL THEN
        RETURN QUERY SELECT 'changed',
            jsonb_build_object('removed', all_removed, 'uids', all_uids, 'ids', all_ids);
    END IF;
    IF since IS NULL OR cardinality(all_ids) > 0 THEN
        RETURN QUERY SELECT 'policy', to_jsonb(policy) FROM cedar.policies AS policy
            WHERE policy.tenant = of_tenant AND (since IS NULL OR policy.id = ANY (all_ids))
            ORDER BY policy.version, policy.place;
    END IF;
    IF uids IS NOT NULL THEN
        RETURN QUERY SELECT 'entity', listed.content
            FROM cedar.entity_rows(of_tenant, cedar.reached(of_tenant, uids)) AS listed;
    ELSIF since IS NULL THEN
        RETURN QUERY SELECT 'entity', jsonb_build_array(entity.uid, ARRAY(
                SELECT edge.parent FROM cedar.parents AS edge
                WHERE edge.tenant = of_tenant AND edge.child = entity.uid), entity.indirect, entity.attributes,
                entity.tags)
            FROM cedar.entities AS entity WHERE entity.tenant = of_tenant LIMIT row_limit;
    ELSIF cardinality(all_uids) > 0 THEN
        RETURN QUERY SELECT 'entity', listed.content FROM cedar.entity_rows(of_tenant, all_uids) AS listed;
    END IF;
END
$$;

-- Returns the uids, and all uids that they reach over parents and indirect ancestors. `OFFSET 0` makes each step use an
-- index.
CREATE FUNCTION cedar.reached(of_tenant bigint, uids text[]) RETURNS text[]
LANGUAGE plpgsql STABLE
AS $$
BEGIN
    RETURN ARRAY(
        WITH RECURSIVE reached (uid) AS (
            SELECT unnest(uids) COLLATE "C"
            UNION
            SELECT edge.ancestor FROM reached CROSS JOIN LATERAL (
                SELECT parent AS ancestor FROM cedar.parents WHERE tenant = of_tenant AND child = reached.uid
                UNION ALL
                SELECT unnest(indirect) FROM cedar.entities AS entity
                    WHERE tenant = of_tenant AND entity.uid = reached.uid AND indirect <> '{}'
                OFFSET 0) AS edge
        )
        SELECT uid FROM reached);
END
$$;

-- Returns the rows of the entities with these uids.
CREATE FUNCTION cedar.entity_rows(of_tenant bigint, uids text[]) RETURNS TABLE (content jsonb)
LANGUAGE plpgsql STABLE
AS $$
BEGIN
    RETURN QUERY SELECT jsonb_build_array(entity.uid, ARRAY(
            SELECT edge.parent FROM cedar.parents AS edge
            WHERE edge.tenant = of_tenant AND edge.child = entity.uid), entity.indirect, entity.attributes, entity.tags)
        FROM unnest(uids) AS requested (uid) CROSS JOIN LATERAL (
            SELECT * FROM cedar.entities
            WHERE cedar.entities.tenant = of_tenant AND cedar.entities.uid = requested.uid OFFSET 0) AS entity;
END
$$;

-- Returns the long texts of a tenant with these keys.
CREATE FUNCTION cedar.long_texts(of_tenant bigint, keys text[]) RETURNS TABLE (key text, text text)
LANGUAGE plpgsql STABLE
SET search_path = pg_catalog, pg_temp SET enable_seqscan = off
AS $$
BEGIN
    PERFORM set_config('cedar.tenant', of_tenant::text, true);
    RETURN QUERY SELECT found.key, found.text FROM cedar.texts AS found
        WHERE found.tenant = of_tenant AND found.key = ANY (keys);
END
$$;

-- Returns the version of the change with an idempotency key, or NULL.
CREATE FUNCTION cedar.version_of(of_tenant bigint, change_key text) RETURNS bigint
LANGUAGE plpgsql STABLE
SET search_path = pg_catalog, pg_temp SET enable_seqscan = off
AS $$
BEGIN
    PERFORM set_config('cedar.tenant', of_tenant::text, true);
    RETURN (SELECT version FROM cedar.changes WHERE tenant = of_tenant AND key = change_key);
END
$$;

-- Returns the versions of tenants that are on this server. It passes the wall, because a cache compares the versions of
-- all its tenants in one statement. It shows nothing else of them.
CREATE FUNCTION cedar.versions(of_tenants bigint[]) RETURNS TABLE (tenant bigint, version bigint)
LANGUAGE sql STABLE SECURITY DEFINER
SET search_path = pg_catalog, pg_temp SET enable_seqscan = off
AS $$
    SELECT tenant, version FROM cedar.tenants WHERE tenant = ANY (of_tenants) AND state = 'here'
$$;
