// The module bech32_c, as it was built and lowered. `web/build` puts both in.
import { moduleOf } from './compiling.js';

const FORMS = ['@BECH32_C@', '@BECH32_C_LOWERED@'];

export const bech32Module = (isLowered) => moduleOf(FORMS, isLowered);
