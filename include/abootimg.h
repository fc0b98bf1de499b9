/*
 * libabootimg: reads Android sparse images and boot images by proved state machines.
 *
 * The library allocates no memory, makes no callbacks, opens no file and keeps no data between two calls. The caller
 * passes bytes and a state, and gets parts back. Of the C library it needs only memcpy, memmove, memset and memcmp, so
 * boot loaders and recoveries can use it too. Calls on different states may run concurrently.
 *
 * Rules for every call:
 * - No pointer is null, not even where a length is 0. What it points to stays valid until the call returns.
 * - `state`, `in` and `out` do not overlap. A call writes only to `out`, and to `state` where that is not const, and
 *   keeps no pointer.
 * - A call returns 0, or the number of the fault. Where `out` has a field for the fault, that field has it too.
 *   (Only abt_boot_fragment returns a length.)
 *
 * C99 and C++.
 */
#ifndef ABOOTIMG_H
#define ABOOTIMG_H

#include <stddef.h>
#include <stdint.h>

#ifdef __cplusplus
extern "C" {
#endif

/* ---- sparse images */

/* The kind of a part of an image. */
enum {
    ABT_NEED = 0,    /* no part yet: all of the input was used, and more of it is needed */
    ABT_RAW = 1,     /* `length` bytes, at `offset` of the input that was passed */
    ABT_FILL = 2,    /* `length` bytes that repeat the four bytes of `word` */
    ABT_SKIP = 3,    /* `length` bytes whose value the image leaves open (don't care) */
    ABT_NOTHING = 4, /* a header or a checksum was read: call again */
    ABT_END = 5,     /* the image has ended; the unused bytes of the input come after it */
    ABT_FAULT = 6,   /* the image is invalid: `fault` and `detail` say why */
    ABT_CHECKSUM = 7 /* the kind of a chunk, never of a part: it has a checksum and no blocks */
};

/* Why an image is invalid: its first fault. The text after the colon is the value of `detail`. */
enum {
    ABT_MAGIC = 1,               /* it does not begin with 0xED26FF3A */
    ABT_MAJOR = 2,               /* major_version is not 1: the version */
    ABT_FILE_HEADER_SIZE = 3,    /* file_hdr_sz is below 28: the size */
    ABT_CHUNK_HEADER_SIZE = 4,   /* chunk_hdr_sz is below 12: the size */
    ABT_BLOCK_SIZE = 5,          /* blk_sz is 0 or no multiple of 4: the size */
    ABT_CHUNK_TYPE = 6,          /* no such chunk_type: the chunk's index, from 0, and the type shifted left by 32 */
    ABT_CHUNK_LENGTH = 7,        /* total_sz does not fit the chunk's data: its index */
    ABT_TOO_MANY_BLOCKS = 8,     /* with this chunk there are more blocks than total_blks: its index */
    ABT_TOO_FEW_BLOCKS = 9,      /* all chunks have fewer blocks than total_blks: how many they have */
    ABT_TRUNCATED = 10,          /* the input ends within the image: how many bytes it has */
    ABT_STATE = 90               /* the numbers of the state are not those of a reader. It was not initialized, or was
                                    overwritten. (Overwritten with the numbers of another reader, it continues as that
                                    reader.) Each call returns this for such a state, and for no other, and leaves the
                                    state unchanged */
};

/* A reader between two calls. It may be copied and stored anywhere. Its fields are private to the library. */
typedef struct abt_sparse {
    uint64_t n[4];
    uint32_t m[10];
    uint16_t h[4];
    uint32_t d[2];
    uint8_t word[4];
    uint8_t held[28];
} abt_sparse;

/* A part of an image. */
typedef struct abt_part {
    uint64_t position; /* the offset of its first byte in the expanded image; 0 where a fault is returned again */
    uint64_t length;   /* how many bytes of the expanded image it has, 0 where it has none */
    size_t used;       /* how many bytes of the input were used: continue after them */
    size_t offset;     /* of ABT_RAW: where its bytes begin in the input that was passed; they end within the bytes
                          that were used; else 0 */
    uint64_t detail;   /* of ABT_FAULT: the value that belongs to the fault; else 0 */
    uint32_t kind;     /* ABT_NEED to ABT_FAULT */
    uint32_t fault;    /* not 0 if and only if kind is ABT_FAULT */
    uint8_t word[4];   /* of ABT_FILL, in the order of its bytes; else 0 */
} abt_part;

/* The size of an image. */
typedef struct abt_size {
    uint64_t bytes;      /* of the expanded image: block_size * blocks */
    uint32_t block_size; /* 0 until the header has been read */
    uint32_t blocks;
    uint32_t chunks;
} abt_size;

/* The other fields of an image's header. */
typedef struct abt_header {
    uint32_t major; /* 0 until the header has been read, then 1 */
    uint32_t minor;
    uint32_t header_size;       /* how many bytes the image's header has */
    uint32_t chunk_header_size; /* how many bytes a chunk's header has */
    uint32_t checksum;          /* of the image; it is not checked */
} abt_header;

/* The chunk whose header was read last. It has been read completely where left, due and extra are 0. */
typedef struct abt_chunk {
    uint64_t left;    /* how many of its raw bytes are still to be read */
    uint32_t headers; /* how many chunk headers were read; the chunk's index is one less */
    uint32_t blocks;  /* how many blocks these chunks have, including its own */
    uint32_t kind;    /* ABT_RAW, ABT_FILL, ABT_SKIP or ABT_CHECKSUM */
    uint32_t due;     /* 1 where its word is still to be read */
    uint32_t extra;   /* how many bytes of its header are still to be read */
    uint8_t word[4];  /* of a fill: its bytes in order; of a checksum: its number, least significant byte first */
} abt_chunk;

/* Initializes a state to read an image from its first byte. The state may hold any bytes before. */
void abt_sparse_init(abt_sparse *state);

/*
 * Returns the next part of the image. `in` holds the bytes after all those that were used before, as many as there are.
 * - It makes no difference where the input is cut: the parts, joined, are the same.
 * - Raw bytes are not copied; they are in `in`.
 * - A fill or a gap is returned whole, of any length, and uses no input.
 * - After ABT_END and ABT_FAULT a call returns the same again, and uses no input.
 * - On ABT_NEED all `in_len` bytes were used: call again with the bytes that follow them, or call abt_sparse_last where
 *   none follow.
 */
uint32_t abt_sparse_next(abt_sparse *state, const uint8_t *in, size_t in_len, abt_part *out);

/*
 * Call this when the input has ended and abt_sparse_next has returned ABT_NEED.
 * - For an image that is cut short the fault is ABT_TRUNCATED.
 * - Where the image has ended it returns ABT_END. Where it has failed it returns its fault.
 * - Called earlier, it returns the parts that need no more input. With each call less is left to do, so that it finally
 *   returns ABT_END or ABT_FAULT, and then the same again.
 */
uint32_t abt_sparse_last(abt_sparse *state, abt_part *out);

/*
 * Returns the size of the image after the 28 bytes of its header have been used; before that, all numbers are 0. For a
 * state that has failed it returns the fault, with all numbers 0.
 */
uint32_t abt_sparse_size(const abt_sparse *state, abt_size *out);

/*
 * Returns the fields of the header. Before the header has been read, all numbers are 0. For a state that has failed it
 * returns the fault, with all numbers 0.
 */
uint32_t abt_sparse_header(const abt_sparse *state, abt_header *out);

/*
 * Returns the chunk whose header was read last. Call it after each ABT_NOTHING: `headers` may have risen, and a word
 * may have been read. All numbers are 0 before the first chunk, and for a state that has failed. A caller who needs no
 * raw bytes may pass any others in place of those that are left, since they make no difference to the result.
 */
uint32_t abt_sparse_chunk(const abt_sparse *state, abt_chunk *out);

/* ---- boot images */

/* What a section holds. */
enum {
    ABT_KERNEL = 1,
    ABT_RAMDISK = 2,
    ABT_SECOND = 3,
    ABT_RECOVERY_DTBO = 4,
    ABT_DTB = 5,
    ABT_SIGNATURE = 6,
    ABT_VENDOR_RAMDISK = 7,
    ABT_VENDOR_RAMDISK_TABLE = 8,
    ABT_BOOTCONFIG = 9
};

/* Why bytes are not a header. */
enum {
    ABT_BOOT_MAGIC = 20,     /* they begin with neither ANDROID! nor VNDRBOOT */
    ABT_BOOT_VERSION = 21,   /* no such version of a header: the version */
    ABT_BOOT_PAGE_SIZE = 22, /* no page has this size: the size */
    ABT_BOOT_TABLE = 23,     /* the vendor ramdisk table does not consist of entries of 108 bytes */
    ABT_BOOT_SHORT = 25      /* more bytes are needed: how many, counted from the first */
};

enum { ABT_BOOT = 1, ABT_VENDOR_BOOT = 2 };

/* The position of a section. */
typedef struct abt_section {
    uint32_t kind; /* ABT_KERNEL to ABT_BOOTCONFIG */
    uint32_t size; /* how many bytes it has, without padding */
    uint64_t at;   /* the offset of its first byte in the image */
} abt_section;

/* The content of a header. */
typedef struct abt_boot {
    uint32_t fault;       /* 0, or why there is no header; then all other fields but detail are 0 */
    uint32_t detail;      /* the value that belongs to the fault */
    uint32_t kind;        /* ABT_BOOT or ABT_VENDOR_BOOT */
    uint32_t version;     /* 0 to 4, of a vendor boot image 3 or 4 */
    uint32_t page_size;
    uint32_t header_size; /* how many bytes the header has */
    uint32_t count;       /* how many sections there are, including empty ones: at most 5 */
    uint32_t reserved;
    abt_section sections[5];
} abt_boot;

/*
 * Reads the header at the beginning of these bytes, of a boot image (versions 0 to 4) or a vendor boot image (3 and 4).
 * The bytes after the header make no difference; 4096 bytes are always enough. With fewer bytes than the header has,
 * the fault is ABT_BOOT_SHORT, and `detail` is how many are needed.
 */
uint32_t abt_boot_info(const uint8_t *head, size_t len, abt_boot *out);

/* The fields that a version has: `has` is a sum of these. */
enum {
    ABT_HAS_KERNEL_ADDR = 1,
    ABT_HAS_RAMDISK_ADDR = 2,
    ABT_HAS_SECOND_ADDR = 4,
    ABT_HAS_TAGS_ADDR = 8,
    ABT_HAS_DTB_ADDR = 16,
    ABT_HAS_OS = 32,
    ABT_HAS_NAME = 64,
    ABT_HAS_CMDLINE = 128,
    ABT_HAS_EXTRA = 256,
    ABT_HAS_ID = 512
};

/* The other fields of a header. A text ends before its first zero byte, or fills its field. */
typedef struct abt_fields {
    uint32_t fault;  /* 0, or why there is no header; then all other fields but detail are 0 */
    uint32_t detail; /* the value that belongs to the fault */
    uint32_t has;    /* ABT_HAS_KERNEL_ADDR to ABT_HAS_ID; a field that the version does not have is 0 */
    uint32_t kernel_addr;
    uint32_t ramdisk_addr;
    uint32_t second_addr;
    uint32_t tags_addr;
    uint32_t fragments; /* how many entries the vendor ramdisk table has */
    uint64_t dtb_addr;
    uint32_t os[5]; /* A, B and C of the OS version, and the year and month of its patch level */
    uint32_t reserved;
    uint8_t id[32];
    uint8_t name[16];
    uint8_t cmdline[2048]; /* 512 bytes of boot 0 to 2, 1536 of boot 3 and 4, 2048 of vendor boot; zeros after */
    uint8_t extra[1024];   /* the text that continues the 512 bytes of cmdline */
} abt_fields;

/* Reads the fields of the header at the beginning of these bytes, with the faults of abt_boot_info. */
uint32_t abt_boot_fields(const uint8_t *head, size_t len, abt_fields *out);

/* A fragment of a vendor ramdisk. */
typedef struct abt_fragment {
    uint32_t size;
    uint32_t at;   /* the offset of its first byte in the vendor ramdisk; where it ends is not checked */
    uint32_t kind; /* 0 none, 1 platform, 2 recovery, 3 dlkm; other numbers have no name */
    uint8_t name[32];
    uint32_t board_id[16];
} abt_fragment;

/*
 * Reads the fragment whose entry is at the beginning of these bytes of the section ABT_VENDOR_RAMDISK_TABLE. Returns
 * how many bytes the entry has. Where there are fewer bytes it returns 0, and `out` is left unchanged.
 */
size_t abt_boot_fragment(const uint8_t *entry, size_t len, abt_fragment *out);

#ifdef __cplusplus
}
#endif

#endif
