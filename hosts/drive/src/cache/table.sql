-- The table that readers keep in memory. Two neighbors are a pair, which each transaction changes together.
CREATE TABLE pair (id bigint PRIMARY KEY);
CREATE TABLE item (id bigint PRIMARY KEY, pair bigint NOT NULL REFERENCES pair ON UPDATE CASCADE ON DELETE CASCADE,
    n bigint NOT NULL DEFAULT 0, token bigint NOT NULL DEFAULT 0);
CREATE FUNCTION change(changed bigint) RETURNS void LANGUAGE plpgsql AS $$
BEGIN
    UPDATE item SET n = n + 1 WHERE id IN (2 * changed, 2 * changed + 1);
END $$;

-- Who keeps rows.
CREATE ROLE reader LOGIN;
GRANT SELECT ON item TO reader;

-- The token of each transaction that is committed, and the changes of each key in their order.
CREATE TABLE committed (token bigint PRIMARY KEY);
CREATE TABLE history (place bigserial PRIMARY KEY, id bigint NOT NULL, token bigint NOT NULL, has_row boolean NOT NULL);
CREATE INDEX ON history (token);
INSERT INTO committed VALUES (0);
INSERT INTO pair SELECT generate_series(0, 19);
INSERT INTO item (id, pair) SELECT id, id / 2 FROM generate_series(0, 29) AS id;
INSERT INTO history (id, token, has_row) SELECT id, 0, true FROM item;

-- Each transaction has a token, which is that of the rows that it has written.
CREATE FUNCTION set_token() RETURNS trigger LANGUAGE plpgsql AS $$
BEGIN
    NEW.token := current_setting('drive.token');
    RETURN NEW;
END $$;
CREATE FUNCTION note() RETURNS trigger LANGUAGE plpgsql AS $$
DECLARE
    writer bigint := current_setting('drive.token');
BEGIN
    IF TG_OP = 'TRUNCATE' THEN
        INSERT INTO history (id, token, has_row) SELECT id, writer, false FROM item;
    ELSIF TG_OP = 'DELETE' THEN
        INSERT INTO history (id, token, has_row) VALUES (OLD.id, writer, false);
    ELSE
        INSERT INTO history (id, token, has_row) VALUES (NEW.id, writer, true);
    END IF;
    RETURN NULL;
END $$;
CREATE TRIGGER set_token BEFORE INSERT OR UPDATE ON item FOR EACH ROW EXECUTE FUNCTION set_token();
CREATE TRIGGER note AFTER INSERT OR UPDATE OR DELETE ON item FOR EACH ROW EXECUTE FUNCTION note();
CREATE TRIGGER note_all BEFORE TRUNCATE ON item EXECUTE FUNCTION note();
ALTER TABLE item ENABLE ALWAYS TRIGGER set_token, ENABLE ALWAYS TRIGGER note, ENABLE ALWAYS TRIGGER note_all;
