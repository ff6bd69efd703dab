/* What czi.h includes beside the library's functions, as plain C: refusals and pixel types in words, and CZI_NONE, a
 * pointer for what has no length. Nothing of this is in the library. */
#ifndef CZI_WORDS_H
#define CZI_WORDS_H

#include <stdint.h>

/* A line for a refusal's number. */
static inline const char *czi_refusal_words(uint32_t number) {
    switch (number) {
    case 0: return "not refused";
    case 1: return "length 0, not a multiple of 32, or above 2^40";
    case 2: return "unknown name";
    case 3: return "AllocatedSize negative or not a multiple of 32; UsedSize negative or larger; end past the file";
    case 4: return "more than 8192 segments";
    case 5: return "the first segment is not the file segment or is under 80 bytes long, or a later one is a "
                   "file segment";
    case 6: return "Major not 1";
    case 7: return "a FilePart not 0";
    case 8: return "UpdatePending not 0";
    case 9: return "a directory or the metadata is said to be where no such segment begins";
    case 10: return "a directory is too short for its entries, or has a negative number of them or over 4096; or "
                    "the metadata segment's sizes are negative or too large for it";
    case 11: return "entry not well formed";
    case 12: return "pixel type not listed";
    case 13: return "compression not 0";
    case 14: return "an entry says that its tile or attachment is where none begins";
    case 15: return "a tile or attachment says something else of itself than its entry does, or is too short to say it";
    case 16: return "a tile's or an attachment's sizes are negative or too large for it, or a tile has too few or "
                    "too many bytes of pixels";
    case 17: return "chunk not as the rules say";
    case 18: return "mask not as the rules say";
    case 20: return "window side not 1 to 65536, or right or bottom edge above 2147483647";
    case 21: return "asked type not listed, or background not one pixel long";
    case 22: return "target, map, sheet or array too short";
    case 23: return "a selected tile that meets the window has another type";
    case 24: return "no entry of that number, counted from 0";
    case 25: return "buffer shorter than the repacked file";
    case 30: return "listing only: input over 65536 bytes";
    case 34: return "a comma in the settings; the place is its offset in them";
    case 35: return "settings not as the rules say, or a pitch not 0.001 to 65.535 micrometres";
    case 36: return "the repacked file would have more than 8192 segments or 2^40 bytes";
    default: return "there is no such refusal";
    }
}

/* The name of a pixel type. */
static inline const char *czi_pixel_type_name(uint32_t pixel_type) {
    switch (pixel_type) {
    case 0: return "Gray8";
    case 1: return "Gray16";
    case 2: return "GrayFloat";
    case 3: return "Bgr24";
    case 4: return "Bgr48";
    case 8: return "BgrFloat";
    case 9: return "Bgra32";
    case 10: return "GrayComplex";
    case 11: return "BgrComplex";
    default: return "not listed";
    }
}

/* A pointer that is not NULL, to nothing that a call reads or writes. */
static inline void *czi_none(void) {
    static uint64_t nothing;
    return &nothing;
}

/* It goes wherever a pointer is asked for with a length of 0: a file, starts, settings, a target, a map, a sheet, marks,
 * arrays of records, the buffer of a repack. */
#ifdef __cplusplus
struct czi_nothing {
    template <class T> operator T *() const { return static_cast<T *>(czi_none()); }
};
#define CZI_NONE (czi_nothing())
#else
#define CZI_NONE (czi_none())
#endif

#endif
