/* Made by tools/make from docs/refusals.tsv; do not edit. */

/* What each function may refuse with, ended by 0. */
static const uint32_t of_encode[] = {2, 4, 11, 12, 13, 14, 15, 51, 92, 0};
static const uint32_t of_decode[] = {2, 11, 12, 13, 14, 15, 21, 22, 23, 31, 32, 33, 92, 0};
static const uint32_t of_decode_strict[] = {2, 4, 11, 12, 13, 14, 15, 21, 22, 23, 31, 32, 33, 44, 45,
                                            92, 0};
static const uint32_t of_decode_elements[] = {2, 4, 11, 12, 13, 14, 15, 21, 22, 23, 31, 32, 33, 92, 0};
static const uint32_t of_encode_elements[] = {2, 4, 11, 12, 13, 14, 15, 51, 67, 92, 0};
static const uint32_t of_check[] = {2, 4, 11, 12, 13, 14, 15, 21, 22, 23, 31, 32, 33, 0};
static const uint32_t of_segwit_encode[] = {2, 4, 11, 12, 13, 14, 15, 46, 47, 48, 52, 53, 92, 0};
static const uint32_t of_segwit_decode[] = {2, 11, 12, 13, 14, 15, 21, 22, 23, 32, 33, 41, 42, 43, 44,
                                            45, 46, 47, 48, 92, 0};
static const uint32_t of_residue[] = {4, 0};
static const uint32_t of_correct[] = {2, 4, 11, 12, 13, 14, 15, 21, 22, 23, 31, 32, 34, 92, 0};
static const uint32_t of_nearest[] = {2, 4, 11, 12, 13, 14, 15, 21, 22, 23, 31, 32, 91, 92, 0};
static const uint32_t of_near_edits[] = {2, 4, 11, 12, 13, 14, 15, 21, 22, 23, 91, 92, 0};
static const uint32_t of_liquid_encode[] = {2, 4, 11, 12, 13, 14, 15, 46, 47, 48, 52, 70, 92, 0};
static const uint32_t of_liquid_decode[] = {2, 11, 12, 13, 14, 15, 21, 22, 23, 31, 32, 33, 42, 43, 44,
                                            45, 46, 47, 48, 70, 79, 92, 0};
static const uint32_t of_liquid_nearest[] = {2, 4, 11, 12, 13, 14, 15, 21, 22, 23, 31, 32, 91, 92, 0};
static const uint32_t of_descriptor_checksum[] = {80, 92, 0};
static const uint32_t of_descriptor_check[] = {33, 80, 88, 0};
static const uint32_t of_descriptor_mend[] = {4, 89, 91, 92, 0};
static const uint32_t of_descriptor_mend_two[] = {89, 91, 92, 0};
static const uint32_t of_suggest[] = {2, 11, 12, 13, 14, 15, 21, 22, 23, 91, 92, 0};
static const uint32_t of_check_many[] = {4, 0};
static const uint32_t of_segwit_decode_many[] = {2, 4, 12, 13, 14, 15, 92, 0};
static const uint32_t of_segwit_encode_many[] = {4, 92, 0};
static const uint32_t of_validity_of[] = {92, 0};
static const uint32_t of_message[] = {92, 0};
static const uint32_t of_codex32_parse[] = {2, 11, 12, 13, 14, 15, 21, 22, 23, 33, 81, 82, 83, 84, 0};
static const uint32_t of_codex32_propose[] = {2, 11, 12, 13, 14, 15, 21, 22, 23, 34, 81, 82, 91, 92, 0};
static const uint32_t of_codex32_propose_long[] = {2, 11, 12, 13, 14, 15, 21, 22, 23, 34, 81, 82, 91,
                                                   92, 0};
static const uint32_t of_codex32_share[] = {2, 11, 12, 13, 14, 15, 21, 22, 23, 33, 81, 82, 83, 84, 87,
                                            92, 0};
static const uint32_t of_codex32_encode[] = {56, 83, 84, 85, 86, 92, 0};
static const uint32_t of_codex32_encode_payload[] = {21, 22, 56, 83, 84, 85, 86, 92, 0};
static const uint32_t of_codex32_derive[] = {2, 4, 11, 12, 13, 14, 15, 21, 22, 23, 33, 74, 75, 76, 77,
                                             81, 82, 83, 84, 86, 92, 0};
static const uint32_t of_codex32_split[] = {56, 66, 68, 78, 83, 84, 85, 92, 0};
static const uint32_t of_codex32_recover[] = {2, 4, 11, 12, 13, 14, 15, 21, 22, 23, 33, 74, 75, 76, 77,
                                              81, 82, 83, 84, 87, 92, 0};
static const uint32_t of_codex32_message[] = {92, 0};
