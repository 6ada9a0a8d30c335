/* Executables in the ELF format, for the words of an instance. What is read of a file is looked at
 * first: a file that is cut off, or whose numbers lead out of it, is refused. */
#include <stdio.h>
#include <stdlib.h>
#include <string.h>

#include "rrs_dpi.h"

enum { HEADER = 52, SEGMENT = 32, SECTION = 40, SYMBOL = 16 };
enum { PT_LOAD = 1, SHT_SYMTAB = 2, SHN_UNDEF = 0 };

struct file {
    unsigned char *bytes;
    size_t size;
};

static uint32_t half(const unsigned char *at) {
    return at[0] | (uint32_t)at[1] << 8;
}

static uint32_t word(const unsigned char *at) {
    return half(at) | half(at + 2) << 16;
}

/* So many bytes of the file from an offset on, or NULL where it has not as many. */
static const unsigned char *part(const struct file *file, uint64_t offset, uint64_t size) {
    return offset <= file->size && size <= file->size - offset ? file->bytes + offset : NULL;
}

/* Entry number i of a table of `count` entries of at least `least` bytes, or NULL. The header has
 * the table's offset at `at`, and the size and the count of its entries at `sizes`. */
static const unsigned char *entry(const struct file *file, uint32_t at, uint32_t sizes, uint32_t i,
                                  uint32_t least) {
    uint32_t size = half(file->bytes + sizes), count = half(file->bytes + sizes + 2);
    if (i >= count || size < least) return NULL;
    return part(file, (uint64_t)word(file->bytes + at) + (uint64_t)i * size, least);
}

static const unsigned char *segment(const struct file *file, uint32_t i) {
    return entry(file, 28, 42, i, SEGMENT);
}

static const unsigned char *section(const struct file *file, uint32_t i) {
    return entry(file, 32, 46, i, SECTION);
}

/* Reads a file whole. Returns 0 where it is an executable for RV32, little-endian. */
static int open_file(const char *name, struct file *file) {
    static const unsigned char wanted[] = {0x7f, 'E', 'L', 'F', 1, 1};
    FILE *stream = fopen(name, "rb");
    long size;
    file->bytes = NULL;
    if (stream == NULL) return -1;
    if (fseek(stream, 0, SEEK_END) == 0 && (size = ftell(stream)) >= HEADER) {
        rewind(stream);
        file->size = (size_t)size;
        file->bytes = malloc(file->size);
        if (file->bytes != NULL && fread(file->bytes, 1, file->size, stream) == file->size &&
            memcmp(file->bytes, wanted, sizeof wanted) == 0 && half(file->bytes + 16) == 2 &&
            half(file->bytes + 18) == 243) {
            fclose(stream);
            return 0;
        }
    }
    fclose(stream);
    free(file->bytes);
    return -1;
}

static void put_byte(struct rrs_dpi *model, uint32_t address, unsigned char byte) {
    uint32_t *place = rrs_dpi_place(model, address), shift = 8 * (address & 3);
    *place = (*place & ~(0xffu << shift)) | (uint32_t)byte << shift;
}

/* Puts a segment at its address, with zeros behind the bytes of the file. Returns how many bytes
 * they are, or -1 where the words do not have its addresses. */
static long load_segment(struct rrs_dpi *model, const struct file *file,
                         const unsigned char *header) {
    uint32_t address = word(header + 8), in_file = word(header + 16), size = word(header + 20), i;
    const unsigned char *bytes = part(file, word(header + 4), in_file);
    if (size == 0) return 0;
    if (bytes == NULL || in_file > size || size - 1 > UINT32_MAX - address ||
        rrs_dpi_place(model, address) == NULL || rrs_dpi_place(model, address + size - 1) == NULL)
        return -1;
    for (i = 0; i < size; i++) put_byte(model, address + i, i < in_file ? bytes[i] : 0);
    return (long)size;
}

/* Puts the segments of an executable into the words, and the pc to its entry. Returns how many
 * bytes they have, or -1 where the file is no executable for RV32 whose segments the words have. */
int rrs_dpi_load_elf(void *handle, const char *name) {
    struct rrs_dpi *model = handle;
    struct file file;
    long total = 0, size = 0;
    uint32_t i, count;
    if (open_file(name, &file) != 0) return -1;
    count = half(file.bytes + 44);
    for (i = 0; i < count && size >= 0; i++) {
        const unsigned char *header = segment(&file, i);
        size = header == NULL ? -1 : word(header) == PT_LOAD ? load_segment(model, &file, header) : 0;
        total += size;
    }
    model->hart.pc = word(file.bytes + 24);
    free(file.bytes);
    return size < 0 ? -1 : (int)total;
}

/* The symbol of a name in a table of symbols, or NULL. */
static const unsigned char *find(const struct file *file, const unsigned char *table,
                                 const char *name) {
    const unsigned char *strings = section(file, word(table + 24)), *text, *symbol;
    size_t length = strlen(name) + 1;
    uint32_t i;
    if (strings == NULL) return NULL;
    for (i = 0; i < word(table + 20) / SYMBOL; i++) {
        symbol = part(file, (uint64_t)word(table + 16) + (uint64_t)i * SYMBOL, SYMBOL);
        if (symbol == NULL) return NULL;
        text = part(file, (uint64_t)word(strings + 16) + word(symbol), length);
        if (text != NULL && memcmp(text, name, length) == 0 && half(symbol + 14) != SHN_UNDEF)
            return symbol;
    }
    return NULL;
}

/* The value of a symbol of an executable. Returns 0 where it has none of this name. */
int rrs_dpi_symbol(const char *name, const char *symbol, uint32_t *value) {
    const unsigned char *table, *found = NULL;
    struct file file;
    uint32_t i;
    *value = 0;
    if (open_file(name, &file) != 0) return 0;
    for (i = 0; found == NULL && (table = section(&file, i)) != NULL; i++)
        if (word(table + 4) == SHT_SYMTAB) found = find(&file, table, symbol);
    if (found != NULL) *value = word(found + 4);
    free(file.bytes);
    return found != NULL;
}
