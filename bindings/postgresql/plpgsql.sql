-- BIP-173 and BIP-350 in PostgreSQL's own languages, for comparison.
CREATE OR REPLACE FUNCTION segwit_check_plpgsql(t text) RETURNS boolean LANGUAGE plpgsql IMMUTABLE STRICT PARALLEL SAFE AS $$
DECLARE
    alphabet CONSTANT text := 'qpzry9x8gf2tvdw0s3jn54khce6mua7l';
    generator CONSTANT bigint[] := ARRAY[x'3b6a57b2'::bigint, x'26508e6d'::bigint, x'1ea119fa'::bigint, x'3d4233dd'::bigint, x'2a1462b3'::bigint];
    low text := lower(t);
    chk bigint := 1;
    top bigint;
    at int;
    n int := length(t);
    v int;
    version int;
    bits int;
    pad int := 0;
    bytes int;
BEGIN
    IF n > 90 OR (low <> t AND upper(t) <> t) THEN RETURN false; END IF;
    at := n + 1 - position('1' IN reverse(low));
    IF at > n OR at < 2 OR at + 6 > n THEN RETURN false; END IF;
    FOR i IN 1 .. at - 1 LOOP
        v := ascii(substr(low, i, 1));
        IF v < 33 OR v > 126 THEN RETURN false; END IF;
        top := chk >> 25;
        chk := ((chk & 33554431) << 5) # (v >> 5);
        FOR k IN 0 .. 4 LOOP IF (top >> k) & 1 = 1 THEN chk := chk # generator[k + 1]; END IF; END LOOP;
    END LOOP;
    top := chk >> 25;
    chk := (chk & 33554431) << 5;
    FOR k IN 0 .. 4 LOOP IF (top >> k) & 1 = 1 THEN chk := chk # generator[k + 1]; END IF; END LOOP;
    FOR i IN 1 .. at - 1 LOOP
        top := chk >> 25;
        chk := ((chk & 33554431) << 5) # (ascii(substr(low, i, 1)) & 31);
        FOR k IN 0 .. 4 LOOP IF (top >> k) & 1 = 1 THEN chk := chk # generator[k + 1]; END IF; END LOOP;
    END LOOP;
    bits := 5 * (n - 6 - (at + 1));
    FOR i IN at + 1 .. n LOOP
        v := position(substr(low, i, 1) IN alphabet) - 1;
        IF v < 0 THEN RETURN false; END IF;
        IF i = at + 1 THEN version := v; END IF;
        IF i = n - 6 THEN pad := v & ((1 << (bits % 8)) - 1); END IF;
        top := chk >> 25;
        chk := ((chk & 33554431) << 5) # v;
        FOR k IN 0 .. 4 LOOP IF (top >> k) & 1 = 1 THEN chk := chk # generator[k + 1]; END IF; END LOOP;
    END LOOP;
    bytes := bits / 8;
    RETURN chk = CASE WHEN version = 0 THEN 1 ELSE x'2bc830a3'::bigint END AND version <= 16 AND bits % 8 <= 4 AND pad = 0
        AND bytes BETWEEN 2 AND 40 AND (version > 0 OR bytes IN (20, 32));
END $$;
