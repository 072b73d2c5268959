// The library over bech32_c, as both entrances of the package have it: one instance for both.
import { bech32Module } from './bech32_module.js';
import { wantsLowered } from './compiling.js';
import { bech32Library } from './library.js';

export const isLowered = wantsLowered();
export const module = bech32Module(isLowered);
export const it = bech32Library(module);
