/* Prints the name and the number of each kind, as `definition.sh kinds` does. */
#include <stdio.h>

#include "shader_reader.h"

int main(void) {
    for (unsigned kind = 1; kind <= SHADER_KIND_ROOT; kind++) printf("%s %u\n", shader_kind_name(kind), kind);
    return 0;
}
