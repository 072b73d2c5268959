// The module codex32_c, as it was built and lowered. `web/build` puts both in.
import { moduleOf } from './compiling.js';

const FORMS = ['@CODEX32_C@', '@CODEX32_C_LOWERED@'];

export const codex32Module = (isLowered) => moduleOf(FORMS, isLowered);
