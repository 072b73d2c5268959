/*
 * Bech32 for PostgreSQL: functions over texts, and the type segwit_address, by the calls of bech32.h.
 *
 * A value of segwit_address holds what the address says, and not its text: the length of the
 * human-readable part, that part in lower case, the witness version, the program. There is one value for
 * each address, so values are equal, ordered and hashed as bytes.
 */
#include "postgres.h"

#include "catalog/pg_collation.h"
#include "common/hashfn.h"
#include "fmgr.h"
#include "libpq/pqformat.h"
#include "mb/pg_wchar.h"
#include "utils/builtins.h"
#include "utils/sortsupport.h"
#include "pg_versions.h"

#include "bech32.h"

PG_MODULE_MAGIC;

#define MOST_BYTES (1 + BECH32_MAX_HRP + 1 + BECH32_MAX_SEGWIT_PROGRAM)

/* An address in its parts. */
typedef struct
{
	uint8_t		hrp[BECH32_MAX_HRP];
	size_t		hrp_length;
	uint32_t	version;
	uint8_t		program[BECH32_MAX_SEGWIT_PROGRAM];
	size_t		program_length;
} Parts;

/* Bytes of a text that is not ended by a zero. */
typedef struct
{
	const uint8_t *at;
	size_t		length;
} Given;

static Given
given(text *it)
{
	Given		found = {(const uint8_t *) VARDATA_ANY(it), VARSIZE_ANY_EXHDR(it)};

	return found;
}

/* The sentence of a refusal. */
static char *
sentence(uint32_t number)
{
	char	   *message = palloc(BECH32_MAX_MESSAGE + 1);
	size_t		length = 0;

	(void) bech32_message(number, (uint8_t *) message, BECH32_MAX_MESSAGE, &length);
	message[length] = '\0';
	return message;
}

/* The same, with the place of the character at fault, counted from 1 in characters, where there is one. */
static char *
sentence_of(uint32_t number, Given it)
{
	size_t		place;

	if ((number == BECH32_HRP_NOT_ASCII || number == BECH32_HRP_INVALID ||
		 number == BECH32_INVALID_CHARACTER || number == BECH32_MIXED_CASE) &&
		bech32_fault(BECH32_BECH32M, it.at, it.length, &place) == number)
		return psprintf("%s (character %d)", sentence(number),
						pg_mbstrlen_with_len((const char *) it.at, (int) place) + 1);
	return sentence(number);
}

/* The refusal of a text by both checksums, or none. */
static uint32_t
check_either(Given it)
{
	size_t		hrp_length,
				data_length;
	uint32_t	number = bech32_check(BECH32_BECH32M, it.at, it.length, &hrp_length, &data_length);

	if (number == BECH32_WRONG_CHECKSUM)
		number = bech32_check(BECH32_BECH32, it.at, it.length, &hrp_length, &data_length);
	return number;
}

/* The checksum of a name. */
static uint32_t
checksum_of(text *name)
{
	Given		it = given(name);

	if (it.length == 6 && memcmp(it.at, "bech32", 6) == 0)
		return BECH32_BECH32;
	if (it.length == 7 && memcmp(it.at, "bech32m", 7) == 0)
		return BECH32_BECH32M;
	ereport(ERROR,
			(errcode(ERRCODE_INVALID_PARAMETER_VALUE),
			 errmsg("there is no checksum \"%s\"", text_to_cstring(name)),
			 errhint("Write 'bech32' or 'bech32m'.")));
}

static uint32_t
decode(Given it, Parts *parts)
{
	return bech32_segwit_decode(it.at, it.length, parts->hrp, sizeof parts->hrp, &parts->hrp_length,
								&parts->version, parts->program, sizeof parts->program,
								&parts->program_length);
}

/* An address that is no address, as PostgreSQL says it of each of its types. */
#define REFUSE(context, number, it) \
	ereturn_compat(context, (Datum) 0, \
			(errcode(ERRCODE_INVALID_TEXT_REPRESENTATION), \
			 errmsg("invalid input syntax for type %s: \"%s\"", "segwit_address", \
					pnstrdup((const char *) (it).at, (it).length)), \
			 errdetail("Refusal %u: %s.", number, sentence_of(number, it))))

/* ---- texts ---- */

PG_FUNCTION_INFO_V1(pg_bech32_check);
Datum
pg_bech32_check(PG_FUNCTION_ARGS)
{
	PG_RETURN_BOOL(check_either(given(PG_GETARG_TEXT_PP(0))) == BECH32_OK);
}

PG_FUNCTION_INFO_V1(pg_bech32_check_by);
Datum
pg_bech32_check_by(PG_FUNCTION_ARGS)
{
	Given		it = given(PG_GETARG_TEXT_PP(0));
	size_t		hrp_length,
				data_length;

	PG_RETURN_BOOL(bech32_check(checksum_of(PG_GETARG_TEXT_PP(1)), it.at, it.length, &hrp_length,
								&data_length) == BECH32_OK);
}

PG_FUNCTION_INFO_V1(pg_bech32_number);
Datum
pg_bech32_number(PG_FUNCTION_ARGS)
{
	PG_RETURN_INT32((int32) check_either(given(PG_GETARG_TEXT_PP(0))));
}

PG_FUNCTION_INFO_V1(pg_bech32_fault);
Datum
pg_bech32_fault(PG_FUNCTION_ARGS)
{
	Given		it = given(PG_GETARG_TEXT_PP(0));
	uint32_t	number = check_either(it);

	if (number == BECH32_OK)
		PG_RETURN_NULL();
	PG_RETURN_TEXT_P(cstring_to_text(sentence_of(number, it)));
}

/* The mended text by one checksum, or null. */
static text *
mended_by(uint32_t checksum, Given it)
{
	uint8_t		mended[BECH32_MAX_TEXT],
				values[BECH32_MAX_LISTED];
	size_t		locations[BECH32_MAX_LISTED],
				count,
				length;

	if (bech32_correct(checksum, it.at, it.length, NULL, 0, locations, BECH32_MAX_LISTED, values,
					   BECH32_MAX_LISTED, &count, mended, sizeof mended, &length) != BECH32_OK)
		return NULL;
	return cstring_to_text_with_len((char *) mended, (int) length);
}

PG_FUNCTION_INFO_V1(pg_bech32_correct);
Datum
pg_bech32_correct(PG_FUNCTION_ARGS)
{
	Given		it = given(PG_GETARG_TEXT_PP(0));
	text	   *one,
			   *other;

	/* what a checksum accepts needs no mending by the other */
	if (check_either(it) == BECH32_OK)
		PG_RETURN_DATUM(DirectFunctionCall1Coll(lower, C_COLLATION_OID, PG_GETARG_DATUM(0)));
	one = mended_by(BECH32_BECH32M, it);
	other = mended_by(BECH32_BECH32, it);
	if ((one == NULL) == (other == NULL))
		PG_RETURN_NULL();
	PG_RETURN_TEXT_P(one != NULL ? one : other);
}

PG_FUNCTION_INFO_V1(pg_bech32_correct_by);
Datum
pg_bech32_correct_by(PG_FUNCTION_ARGS)
{
	text	   *mended = mended_by(checksum_of(PG_GETARG_TEXT_PP(1)), given(PG_GETARG_TEXT_PP(0)));

	if (mended == NULL)
		PG_RETURN_NULL();
	PG_RETURN_TEXT_P(mended);
}

/* The library that is linked: its version as bech32.h numbers it. */
PG_FUNCTION_INFO_V1(pg_bech32_version);
Datum
pg_bech32_version(PG_FUNCTION_ARGS)
{
	PG_RETURN_INT32((int32) bech32_version());
}

/* ---- segwit addresses as texts ---- */

PG_FUNCTION_INFO_V1(pg_segwit_number);
Datum
pg_segwit_number(PG_FUNCTION_ARGS)
{
	Parts		parts;

	PG_RETURN_INT32((int32) decode(given(PG_GETARG_TEXT_PP(0)), &parts));
}

PG_FUNCTION_INFO_V1(pg_segwit_check);
Datum
pg_segwit_check(PG_FUNCTION_ARGS)
{
	Parts		parts;

	PG_RETURN_BOOL(decode(given(PG_GETARG_TEXT_PP(0)), &parts) == BECH32_OK);
}

PG_FUNCTION_INFO_V1(pg_segwit_check_hrp);
Datum
pg_segwit_check_hrp(PG_FUNCTION_ARGS)
{
	Given		hrp = given(PG_GETARG_TEXT_PP(1));
	Parts		parts;

	PG_RETURN_BOOL(decode(given(PG_GETARG_TEXT_PP(0)), &parts) == BECH32_OK &&
				   parts.hrp_length == hrp.length &&
				   pg_strncasecmp((char *) parts.hrp, (const char *) hrp.at, hrp.length) == 0);
}

PG_FUNCTION_INFO_V1(pg_segwit_fault);
Datum
pg_segwit_fault(PG_FUNCTION_ARGS)
{
	Given		it = given(PG_GETARG_TEXT_PP(0));
	Parts		parts;
	uint32_t	number = decode(it, &parts);

	if (number == BECH32_OK)
		PG_RETURN_NULL();
	PG_RETURN_TEXT_P(cstring_to_text(sentence_of(number, it)));
}

static bytea *
bytes_of(const uint8_t *at, size_t length)
{
	bytea	   *it = palloc(VARHDRSZ + length);

	SET_VARSIZE(it, VARHDRSZ + length);
	memcpy(VARDATA(it), at, length);
	return it;
}

PG_FUNCTION_INFO_V1(pg_segwit_program_of_text);
Datum
pg_segwit_program_of_text(PG_FUNCTION_ARGS)
{
	Given		it = given(PG_GETARG_TEXT_PP(0));
	Parts		parts;
	uint32_t	number = decode(it, &parts);

	if (number != BECH32_OK)
		REFUSE(NULL, number, it);
	PG_RETURN_BYTEA_P(bytes_of(parts.program, parts.program_length));
}

PG_FUNCTION_INFO_V1(pg_segwit_version_of_text);
Datum
pg_segwit_version_of_text(PG_FUNCTION_ARGS)
{
	Given		it = given(PG_GETARG_TEXT_PP(0));
	Parts		parts;
	uint32_t	number = decode(it, &parts);

	if (number != BECH32_OK)
		REFUSE(NULL, number, it);
	PG_RETURN_INT32((int32) parts.version);
}

/* Writes the address of parts, and returns its length. */
static size_t
encode(Given hrp, int32 version, Given program, uint8_t *put)
{
	size_t		length = 0;
	uint32_t	number = bech32_segwit_encode(hrp.at, hrp.length, (uint32_t) version, program.at,
											  program.length, put, BECH32_MAX_SEGWIT_TEXT, &length);

	if (number == BECH32_BAD_NUMBER)	/* a version above 31, or negative */
		number = BECH32_ENCODED_BAD_VERSION;
	if (number != BECH32_OK)
		ereport(ERROR,
				(errcode(ERRCODE_INVALID_PARAMETER_VALUE),
				 errmsg("no segwit address has these parts"),
				 errdetail("Refusal %u: %s.", number, sentence(number))));
	return length;
}

PG_FUNCTION_INFO_V1(pg_segwit_encode);
Datum
pg_segwit_encode(PG_FUNCTION_ARGS)
{
	uint8_t		put[BECH32_MAX_SEGWIT_TEXT];
	size_t		length = encode(given(PG_GETARG_TEXT_PP(0)), PG_GETARG_INT32(1),
								given((text *) PG_GETARG_BYTEA_PP(2)), put);

	PG_RETURN_TEXT_P(cstring_to_text_with_len((char *) put, (int) length));
}

/* The address in lower case, or null where the text is none. */
PG_FUNCTION_INFO_V1(pg_segwit_lower);
Datum
pg_segwit_lower(PG_FUNCTION_ARGS)
{
	Parts		parts;

	if (decode(given(PG_GETARG_TEXT_PP(0)), &parts) != BECH32_OK)
		PG_RETURN_NULL();
	PG_RETURN_DATUM(DirectFunctionCall1Coll(lower, C_COLLATION_OID, PG_GETARG_DATUM(0)));
}

/* ---- the type ---- */

static Datum
value_of(const Parts *parts)
{
	size_t		size = VARHDRSZ + 1 + parts->hrp_length + 1 + parts->program_length;
	struct varlena *value = palloc(size);
	uint8_t    *at = (uint8_t *) VARDATA(value);

	SET_VARSIZE(value, size);
	*at++ = (uint8_t) parts->hrp_length;
	for (size_t i = 0; i < parts->hrp_length; i++)
		*at++ = pg_ascii_tolower(parts->hrp[i]);
	*at++ = (uint8_t) parts->version;
	memcpy(at, parts->program, parts->program_length);
	return PointerGetDatum(value);
}

/* The parts of a value. Values come from value_of alone; a damaged one is an error, and nothing outside is read. */
static void
parts_of(Datum datum, Given *hrp, int32 *version, Given *program)
{
	struct varlena *value = PG_DETOAST_DATUM_PACKED(datum);
	const uint8_t *at = (const uint8_t *) VARDATA_ANY(value);
	size_t		size = VARSIZE_ANY_EXHDR(value);

	if (size < 2 || size > MOST_BYTES || (size_t) at[0] + 2 > size)
		ereport(ERROR, (errcode(ERRCODE_DATA_CORRUPTED), errmsg("a value of segwit_address is damaged")));
	hrp->at = at + 1;
	hrp->length = at[0];
	*version = at[1 + at[0]];
	program->at = at + 2 + at[0];
	program->length = size - 2 - at[0];
}

PG_FUNCTION_INFO_V1(segwit_address_in);
Datum
segwit_address_in(PG_FUNCTION_ARGS)
{
	char	   *text_in = PG_GETARG_CSTRING(0);
	Given		it = {(uint8_t *) text_in, strlen(text_in)};
	Parts		parts;
	uint32_t	number = decode(it, &parts);

	if (number != BECH32_OK)
		REFUSE(fcinfo->context, number, it);
	return value_of(&parts);
}

PG_FUNCTION_INFO_V1(pg_to_segwit_address);
Datum
pg_to_segwit_address(PG_FUNCTION_ARGS)
{
	Parts		parts;

	if (decode(given(PG_GETARG_TEXT_PP(0)), &parts) != BECH32_OK)
		PG_RETURN_NULL();
	return value_of(&parts);
}

PG_FUNCTION_INFO_V1(pg_segwit_address_of_text);
Datum
pg_segwit_address_of_text(PG_FUNCTION_ARGS)
{
	Given		it = given(PG_GETARG_TEXT_PP(0));
	Parts		parts;
	uint32_t	number = decode(it, &parts);

	if (number != BECH32_OK)
		REFUSE(NULL, number, it);
	return value_of(&parts);
}

/* The text of a value. */
static size_t
written(Datum datum, uint8_t *put)
{
	Given		hrp,
				program;
	int32		version;

	parts_of(datum, &hrp, &version, &program);
	return encode(hrp, version, program, put);
}

PG_FUNCTION_INFO_V1(segwit_address_out);
Datum
segwit_address_out(PG_FUNCTION_ARGS)
{
	uint8_t		put[BECH32_MAX_SEGWIT_TEXT];
	size_t		length = written(PG_GETARG_DATUM(0), put);

	PG_RETURN_CSTRING(pnstrdup((char *) put, length));
}

PG_FUNCTION_INFO_V1(pg_text_of_segwit_address);
Datum
pg_text_of_segwit_address(PG_FUNCTION_ARGS)
{
	uint8_t		put[BECH32_MAX_SEGWIT_TEXT];
	size_t		length = written(PG_GETARG_DATUM(0), put);

	PG_RETURN_TEXT_P(cstring_to_text_with_len((char *) put, (int) length));
}

/* To clients that ask for binary values it is the text too: none has to know what is stored. */
PG_FUNCTION_INFO_V1(segwit_address_send);
Datum
segwit_address_send(PG_FUNCTION_ARGS)
{
	uint8_t		put[BECH32_MAX_SEGWIT_TEXT];
	size_t		length = written(PG_GETARG_DATUM(0), put);
	StringInfoData message;

	pq_begintypsend(&message);
	pq_sendtext(&message, (char *) put, (int) length);
	PG_RETURN_BYTEA_P(pq_endtypsend(&message));
}

PG_FUNCTION_INFO_V1(segwit_address_recv);
Datum
segwit_address_recv(PG_FUNCTION_ARGS)
{
	StringInfo	message = (StringInfo) PG_GETARG_POINTER(0);
	int			length;
	char	   *text_in = pq_getmsgtext(message, message->len - message->cursor, &length);
	Given		it = {(uint8_t *) text_in, (size_t) length};
	Parts		parts;
	uint32_t	number = decode(it, &parts);

	if (number != BECH32_OK)
		REFUSE(fcinfo->context, number, it);
	return value_of(&parts);
}

PG_FUNCTION_INFO_V1(pg_segwit_address);
Datum
pg_segwit_address(PG_FUNCTION_ARGS)
{
	uint8_t		put[BECH32_MAX_SEGWIT_TEXT];
	Given		it = {put, 0};
	Parts		parts;

	it.length = encode(given(PG_GETARG_TEXT_PP(0)), PG_GETARG_INT32(1),
					   given((text *) PG_GETARG_BYTEA_PP(2)), put);
	if (decode(it, &parts) != BECH32_OK)
		elog(ERROR, "an address that was written is not read");
	return value_of(&parts);
}

PG_FUNCTION_INFO_V1(pg_segwit_hrp);
Datum
pg_segwit_hrp(PG_FUNCTION_ARGS)
{
	Given		hrp,
				program;
	int32		version;

	parts_of(PG_GETARG_DATUM(0), &hrp, &version, &program);
	PG_RETURN_TEXT_P(cstring_to_text_with_len((const char *) hrp.at, (int) hrp.length));
}

PG_FUNCTION_INFO_V1(pg_segwit_version);
Datum
pg_segwit_version(PG_FUNCTION_ARGS)
{
	Given		hrp,
				program;
	int32		version;

	parts_of(PG_GETARG_DATUM(0), &hrp, &version, &program);
	PG_RETURN_INT32(version);
}

PG_FUNCTION_INFO_V1(pg_segwit_program);
Datum
pg_segwit_program(PG_FUNCTION_ARGS)
{
	Given		hrp,
				program;
	int32		version;

	parts_of(PG_GETARG_DATUM(0), &hrp, &version, &program);
	PG_RETURN_BYTEA_P(bytes_of(program.at, program.length));
}

/* ---- order, equality and hashes: of bytes ---- */

static int
compared(Datum a, Datum b)
{
	struct varlena *x = PG_DETOAST_DATUM_PACKED(a);
	struct varlena *y = PG_DETOAST_DATUM_PACKED(b);
	size_t		m = VARSIZE_ANY_EXHDR(x),
				n = VARSIZE_ANY_EXHDR(y);
	int			order = memcmp(VARDATA_ANY(x), VARDATA_ANY(y), Min(m, n));

	/* a long sort compares in one memory context */
	if ((Pointer) x != DatumGetPointer(a))
		pfree(x);
	if ((Pointer) y != DatumGetPointer(b))
		pfree(y);
	return order != 0 ? order : (m > n) - (m < n);
}

#define COMPARES(name, sign) \
	PG_FUNCTION_INFO_V1(segwit_address_##name); \
	Datum \
	segwit_address_##name(PG_FUNCTION_ARGS) \
	{ \
		PG_RETURN_BOOL(compared(PG_GETARG_DATUM(0), PG_GETARG_DATUM(1)) sign 0); \
	}

COMPARES(lt, <)
COMPARES(le, <=)
COMPARES(eq, ==)
COMPARES(ne, !=)
COMPARES(ge, >=)
COMPARES(gt, >)

PG_FUNCTION_INFO_V1(segwit_address_cmp);
Datum
segwit_address_cmp(PG_FUNCTION_ARGS)
{
	PG_RETURN_INT32(compared(PG_GETARG_DATUM(0), PG_GETARG_DATUM(1)));
}

static int
compared_fast(Datum a, Datum b, SortSupport support)
{
	return compared(a, b);
}

PG_FUNCTION_INFO_V1(segwit_address_sortsupport);
Datum
segwit_address_sortsupport(PG_FUNCTION_ARGS)
{
	SortSupport support = (SortSupport) PG_GETARG_POINTER(0);

	support->comparator = compared_fast;
	PG_RETURN_VOID();
}

PG_FUNCTION_INFO_V1(segwit_address_hash);
Datum
segwit_address_hash(PG_FUNCTION_ARGS)
{
	struct varlena *it = PG_DETOAST_DATUM_PACKED(PG_GETARG_DATUM(0));

	return hash_any((unsigned char *) VARDATA_ANY(it), (int) VARSIZE_ANY_EXHDR(it));
}

PG_FUNCTION_INFO_V1(segwit_address_hash_extended);
Datum
segwit_address_hash_extended(PG_FUNCTION_ARGS)
{
	struct varlena *it = PG_DETOAST_DATUM_PACKED(PG_GETARG_DATUM(0));

	return hash_any_extended((unsigned char *) VARDATA_ANY(it), (int) VARSIZE_ANY_EXHDR(it),
							 PG_GETARG_INT64(1));
}
