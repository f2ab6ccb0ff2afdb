/* What a container runtime says of a container (clients/trap/state.c): any text has a name in it or none, which has room, and none of its quotes is bare. */
#include <stdint.h>
#include <stdlib.h>

#include "../../clients/trap/state.c"

int LLVMFuzzerTestOneInput(const uint8_t *data, size_t size)
{
    char name[32], *text = malloc(size + 1);
    if (text == NULL)
        return 0;
    memcpy(text, data, size);
    text[size] = 0;
    if (state_name(text, name, sizeof name)) {
        size_t length = strlen(name);
        if (length == 0 || length >= sizeof name)
            abort();
        for (size_t i = 0; i < length; i++)
            if (name[i] == '\\')
                i++;
            else if (name[i] == '"')
                abort();
    }
    free(text);
    return 0;
}
