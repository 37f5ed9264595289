/*
 * Reads the flow in the file named by its argument and writes one line: accepted with its three numbers
 * and its kind, or refused with number, record and position.
 *
 *     cc include/example.c target/staticlib/libcapi.a -o example && ./example samples/two-rents.flow
 */
#include <inttypes.h>
#include <stdio.h>
#include <stdlib.h>

#include "mav.h"

/* The bytes of an open file and their number; or null where they cannot be read. The caller frees them. */
static uint8_t *read_all(FILE *file, size_t *length) {
    long size = fseek(file, 0, SEEK_END) == 0 ? ftell(file) : -1;
    if (size < 0)
        return NULL;
    rewind(file);
    *length = (size_t)size;
    uint8_t *bytes = malloc(*length + 1); /* never of 0 bytes, which could give null */
    if (bytes != NULL && fread(bytes, 1, *length, file) != *length) {
        free(bytes);
        bytes = NULL;
    }
    return bytes;
}

static void judge(const uint8_t *flow, size_t length) {
    uint64_t answer[MAV_ENTRIES] = {0};
    if (mav_read(flow, length, answer))
        printf("accepted dispositions %" PRIu64 " cents %" PRIu64 " records %" PRIu64 " kind %s\n",
               answer[MAV_DISPOSITIONS], answer[MAV_CENTS], answer[MAV_RECORDS],
               answer[MAV_KIND] == MAV_KIND_RECALLS ? "recalls" : "requests");
    else
        printf("refused %" PRIu64 " record %" PRIu64 " position %" PRIu64 "\n",
               answer[MAV_NUMBER], answer[MAV_RECORD], answer[MAV_POSITION]);
}

int main(int argc, char **argv) {
    if (argc != 2) {
        fprintf(stderr, "usage: example FLOW\n");
        return 2;
    }
    size_t length = 0;
    FILE *file = fopen(argv[1], "rb");
    uint8_t *flow = file == NULL ? NULL : read_all(file, &length);
    if (file != NULL)
        fclose(file);
    if (flow == NULL) {
        fprintf(stderr, "%s: cannot be read\n", argv[1]);
        return 1;
    }
    judge(flow, length);
    free(flow);
    return 0;
}
