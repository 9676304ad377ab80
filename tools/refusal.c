/* Prints the words of a refusal number. */
#include "lukaripe.h"
#include <stdio.h>
#include <stdlib.h>

int main(int argc, char **argv) {
    if (argc != 2)
        return 2;
    return puts(lukaripe_refusal_text(strtoull(argv[1], NULL, 10))) < 0;
}
