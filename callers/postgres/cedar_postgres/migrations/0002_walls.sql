-- Row-level security, the second wall between tenants. A statement sees and writes only the rows of the tenant that its
-- transaction has set, and none if it has set none. The adapter's functions set the tenant from their argument.

-- A service connects as a role that is a member of this role, and owns nothing.
DO $$
BEGIN
    IF NOT EXISTS (SELECT FROM pg_roles WHERE rolname = 'cedar_service') THEN
        CREATE ROLE cedar_service NOLOGIN;
    END IF;
EXCEPTION WHEN duplicate_object OR unique_violation THEN
    NULL;  -- a migration of another database of this server has just created it
END
$$;

-- After a transaction that has set the tenant, the setting is '' and not NULL.
CREATE FUNCTION cedar.current_tenant() RETURNS bigint LANGUAGE sql STABLE PARALLEL SAFE AS
    $$ SELECT nullif(current_setting('cedar.tenant', true), '')::bigint $$;

DO $$
DECLARE
    name text;
BEGIN
    FOREACH name IN ARRAY ARRAY['tenants', 'entities', 'parents', 'policies', 'texts', 'changes'] LOOP
        EXECUTE format('ALTER TABLE cedar.%I ENABLE ROW LEVEL SECURITY', name);
        EXECUTE format('CREATE POLICY wall ON cedar.%I USING (tenant = cedar.current_tenant()) '
                       'WITH CHECK (tenant = cedar.current_tenant())', name);
        -- The owner is subject to the wall too, except that `cedar.versions` reads the versions of several tenants.
        IF name <> 'tenants' THEN
            EXECUTE format('ALTER TABLE cedar.%I FORCE ROW LEVEL SECURITY', name);
        END IF;
        EXECUTE format('GRANT SELECT, INSERT, UPDATE, DELETE ON cedar.%I TO cedar_service', name);
    END LOOP;
END
$$;

GRANT USAGE ON SCHEMA cedar TO cedar_service;
GRANT SELECT ON cedar.migrations TO cedar_service;
