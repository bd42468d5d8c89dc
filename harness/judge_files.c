/* Judges the files that are named after some letters, and prints the number of each on a line: judge_files LETTERS FILE... */
#include <stdio.h>
#include <string.h>
#include "dilavondra.h"

/* No file of a trace is longer than 522 bytes, and no byte past the 530th alters the answer. */
enum { LONGEST = 530 };

int main(int argc, char **argv) {
    if (argc < 2) {
        fprintf(stderr, "judge_files LETTERS FILE...\n");
        return 2;
    }
    for (int i = 2; i < argc; i++) {
        uint8_t bytes[LONGEST];
        FILE *file = fopen(argv[i], "rb");
        if (file == NULL) {
            perror(argv[i]);
            return 1;
        }
        size_t length = fread(bytes, 1, LONGEST, file);
        fclose(file);
        printf("%s %s: %u\n", argv[1], argv[i], (unsigned)dilavondra_judge((const uint8_t *)argv[1], strlen(argv[1]), bytes, length));
    }
    return 0;
}
