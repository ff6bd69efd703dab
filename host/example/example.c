/* Lists a CZI file, composes the whole of its box in the type of its first tile, with masks on,
 * and prints how many pixels a tile gave and whether both composers agree. Where the first tile has
 * layers, such as the focal planes of a stack, its first layer is composed. The file is judged by
 * release 1.2 of the format unless 1.02 is named.
 *
 *   cc -Wall -Wextra -Werror -Iinclude host/example/example.c target/staticlib/libczi.a -o example
 *   ./example host/samples/mosaic.czi
 *   ./example host/samples/mosaic.czi 1.02
 *   ./example host/samples/stack.czi
 */
#include <stdio.h>
#include <stdlib.h>
#include <string.h>

#include "czi.h"

/* No pixel has more bytes: type 11. */
enum { MOST_BYTES_A_PIXEL = 24 };

/* The whole file, never NULL; the program ends where it can't be read. */
static uint8_t *read_file(const char *path, size_t *length) {
    FILE *from = fopen(path, "rb");
    uint8_t *bytes = malloc(1);
    size_t room = 1, got;
    *length = 0;
    while (from != NULL && bytes != NULL && (got = fread(bytes + *length, 1, room - *length, from)) > 0) {
        *length += got;
        if (*length == room) {
            room *= 2;
            bytes = realloc(bytes, room);
        }
    }
    if (from == NULL || bytes == NULL || ferror(from)) {
        perror(path);
        exit(1);
    }
    fclose(from);
    return bytes;
}

static int refused(uint32_t number, uint64_t place) {
    fprintf(stderr, "refused %u at %llu: %s\n", (unsigned)number, (unsigned long long)place, czi_refusal_words(number));
    return 2;
}

/* Composes the box both ways and prints the covered count. */
static int compose(const uint8_t *file, size_t length, uint32_t release) {
    uint64_t place, bytes, segments, tiles, attachments, has_box;
    int32_t left, top, right, bottom;
    uint32_t number = czi_summary(file, length, release, &place, &bytes, &segments, &tiles, &attachments, &has_box,
                                  &left, &top, &right, &bottom);
    if (number != 0) return refused(number, place);
    if (!has_box) {
        puts("covered=0");
        return 0;
    }
    uint64_t numbers[CZI_TILE_NUMBERS];
    int32_t starts[CZI_TILE_STARTS];
    number = czi_tile(file, length, release, 0, &place, numbers, starts);
    if (number != 0) return refused(number, place);

    int32_t asked[26] = {0}; /* where the tiles to select start, A to Z: at 0, and any scene is taken */
    if (numbers[CZI_TILE_LAYER_SIZE] != 0) {
        char letter = (char)numbers[CZI_TILE_LAYER_LETTER];
        asked[letter - 'A'] = starts[CZI_TILE_LAYER_START];
        printf("layer=%c,%d\n", letter, (int)starts[CZI_TILE_LAYER_START]);
    }
    uint32_t type = (uint32_t)numbers[CZI_TILE_PIXEL_TYPE];
    uint32_t width = (uint32_t)right - (uint32_t)left, height = (uint32_t)bottom - (uint32_t)top;
    size_t pixel = czi_pixel_bytes(type), pixels = (size_t)width * height;
    size_t target_length = pixels * pixel, map_length = (pixels + 7) / 8;
    const uint8_t background[MOST_BYTES_A_PIXEL] = {0};
    uint8_t *target[2], *map[2];
    uint64_t covered[2], stored[2];
    for (int quick = 0; quick < 2; quick++) {
        target[quick] = malloc(target_length);
        map[quick] = malloc(map_length);
        if (target[quick] == NULL || map[quick] == NULL) {
            perror("memory");
            return 1;
        }
        number = (quick ? czi_compose_quick : czi_compose_plain)(
            file, length, release, asked, 26, 1, type, background, pixel, left, top, width, height, CZI_MASKS_ON,
            target[quick], target_length, map[quick], map_length, &place, &covered[quick], &stored[quick]);
        if (number != 0) return refused(number, place);
    }
    int agree = covered[0] == covered[1] && memcmp(target[0], target[1], target_length) == 0
                && memcmp(map[0], map[1], map_length) == 0;
    printf("covered=%llu\n", (unsigned long long)covered[0]);
    printf("stored=%llu,%llu\n", (unsigned long long)stored[0], (unsigned long long)stored[1]);
    printf("agree=%s\n", agree ? "yes" : "no");
    for (int quick = 0; quick < 2; quick++) {
        free(target[quick]);
        free(map[quick]);
    }
    return agree ? 0 : 1;
}

int main(int count, char **arguments) {
    const char *named = count == 3 ? arguments[2] : "1.2";
    uint32_t release = strcmp(named, "1.02") == 0 ? CZI_RELEASE_1_02 : CZI_RELEASE_1_2;
    if (count < 2 || count > 3 || (release == CZI_RELEASE_1_2 && strcmp(named, "1.2") != 0)) {
        fprintf(stderr, "usage: example FILE [1.02|1.2]\n");
        return 1;
    }
    size_t length;
    uint8_t *file = read_file(arguments[1], &length);
    uint8_t text[CZI_TEXT];
    fwrite(text, 1, czi_list(file, length, release, text), stdout);
    int status = compose(file, length, release);
    free(file);
    return status;
}
