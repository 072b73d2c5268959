// Bech32 (BIP-173), Bech32m (BIP-350) and codex32 (BIP-93). README.md is for users.
import { codex32Module } from './codex32_module.js';
import { isLowered, it } from './started.js';

export * from './bech32.js';
export const codex32 = it.strings(codex32Module(isLowered));
