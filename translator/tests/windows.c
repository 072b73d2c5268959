/* Input and output of the tests on Windows: bytes as they are. */
#include <fcntl.h>
#include <io.h>

__attribute__((constructor)) static void as_they_are(void) {
    _setmode(0, _O_BINARY);
    _setmode(1, _O_BINARY);
}
