// Compiles the modules, of which each is there as it was built and lowered to 32-bit memory.

// A module that has a 64-bit memory and nothing else.
const PROBE = Uint8Array.of(0, 97, 115, 109, 1, 0, 0, 0, 5, 3, 1, 4, 1);

const bytesOf = (base64) => Uint8Array.from(atob(base64), (character) => character.charCodeAt(0));

/** Whether there is no 64-bit memory, so that the lowered modules are to be taken. */
export const wantsLowered = () => !WebAssembly.validate(PROBE);

/** One of two forms of a module. */
export const moduleOf = ([wide, lowered], isLowered) => new WebAssembly.Module(bytesOf(isLowered ? lowered : wide));
