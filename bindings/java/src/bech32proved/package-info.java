/**
 * Bech32 (BIP-173), Bech32m (BIP-350), segwit addresses, confidential addresses of Liquid, checksums of output descriptors
 * (BIP-380) and codex32 (BIP-93), by C functions that are proved to do what their headers say of every input. These classes
 * are tested.
 *
 * <p>What is refused is a {@link bech32proved.RefusedException}, with its {@link bech32proved.Refusal}, and the place of the
 * character at fault where a single one is. Places count from 0 at the front of a text; what is printed counts from 1, for
 * people. All methods may be called from any number of threads.
 */
package bech32proved;
