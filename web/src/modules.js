// Both modules of the library.
import { bech32Module } from './bech32_module.js';
import { codex32Module } from './codex32_module.js';
import { wantsLowered } from './compiling.js';

/** The modules, the lowered ones where there is no 64-bit memory. */
export const compiled = () => {
  const isLowered = wantsLowered();
  return { modules: [bech32Module(isLowered), codex32Module(isLowered)], isLowered };
};
