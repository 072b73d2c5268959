/* What the package calls behind each call of codex32: codex32_wipe_stack is a function of the header alone. */
#include "codex32.h"

#if defined(_WIN32)
__declspec(dllexport)
#endif
void bech32_proved_wipe_stack(void);

void bech32_proved_wipe_stack(void) {
    codex32_wipe_stack();
}
