-- What version 0.2 adds to 0.1.
\echo Use "ALTER EXTENSION bech32 UPDATE TO '0.2'" to load this file. \quit

CREATE FUNCTION segwit_lower(text) RETURNS text
    AS 'MODULE_PATHNAME', 'pg_segwit_lower' LANGUAGE C IMMUTABLE STRICT PARALLEL SAFE COST 10;
COMMENT ON FUNCTION segwit_lower(text) IS 'the segwit address in lower case, or null for other texts';

CREATE FUNCTION bech32_version() RETURNS integer
    AS 'MODULE_PATHNAME', 'pg_bech32_version' LANGUAGE C IMMUTABLE STRICT PARALLEL SAFE;
COMMENT ON FUNCTION bech32_version() IS 'the version of the library: 10,000 times the first number, 100 times the second, and the third';
