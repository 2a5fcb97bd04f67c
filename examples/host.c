/* A host in C: checks the check, then plays the bench on the three files of a folder and prints the listing, or the refusal.
 *
 *     host FOLDER
 */
#include "lane.h"

#include <stdio.h>
#include <string.h>

/* One byte more than the longest that is taken, so that a longer file is seen. */
static uint8_t file[4609], input[20481], picks[3001];
static uint8_t listing[LANE_LISTING_SIZE];

/* A file that cannot be read is empty. */
static size_t load(const char *folder, const char *name, uint8_t *bytes, size_t size) {
    char path[4096];
    if (snprintf(path, sizeof path, "%s/%s", folder, name) >= (int)sizeof path) {
        return 0;
    }
    FILE *f = fopen(path, "rb");
    if (f == NULL) {
        return 0;
    }
    size_t length = fread(bytes, 1, size, f);
    int failed = ferror(f);
    fclose(f);
    return failed ? 0 : length;
}

int main(int count, char **arguments) {
    if (count != 2) {
        fprintf(stderr, "usage: %s FOLDER\n", arguments[0]);
        return 2;
    }
    const char *digits = "123456789";
    if (lane_block_check((const uint8_t *)digits, strlen(digits)) != 0x29B1) {
        fprintf(stderr, "the block check is wrong\n");
        return 1;
    }
    size_t file_length = load(arguments[1], "net.bin", file, sizeof file);
    size_t input_length = load(arguments[1], "in.bin", input, sizeof input);
    size_t picks_length = load(arguments[1], "picks.bin", picks, sizeof picks);
    int32_t answer =
        lane_bench(file, file_length, input, input_length, picks, picks_length, listing, sizeof listing);
    if (answer < 0) {
        printf("refused %d\n", -answer);
        return 0;
    }
    return fwrite(listing, 1, (size_t)answer, stdout) == (size_t)answer ? 0 : 1;
}
