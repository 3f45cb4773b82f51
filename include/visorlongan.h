/* Strip plans of Nintendo 64 background objects (S2DEX2), from a planner that is proved.

   A background object is an image that is larger than the 4 KB of texture memory. A plan cuts it into strips that fit: a list
   of entries that set the texture image, set tiles, load rows and draw rectangles, and an end that says how the list ended.
   docs/SPECIFICATION.md has every rule; the numbers in brackets below, as (9.2), are its statements.

   Platform: x86-64 Linux, libvisorlongan.a. The archive needs no other library, not even C's.

   CALLS. An array is passed as a pointer and a length in elements. Where the length is 0 the pointer may be null. Pointers are
   aligned for their elements. The arrays that a call writes lie apart from each other and from those that it reads; nothing
   else touches them during the call. Any lengths and any values are fine: a call always ends, reads and writes inside the
   lengths that it is given, allocates nothing, and keeps nothing between calls, so threads may call at once.
   visor_run, visor_count, visor_apply, visor_start, visor_step, visor_drift and visor_sample answer 0, or 1 where a length is not
   the one named below; then they have changed nothing. visor_write_copy answers 0, or 2, 4 or 11 (visor_written); then it has
   changed nothing.

   NUMBERS. A word is a uint64_t. A signed number is stored modulo 2^64: (int64_t)word gives it back. Units: a *quarter* is a
   quarter of a texel or of a pixel (10.2), a *thirty-second* is one of a texel (10.5), a *scale* has 1,024 as 1 (5.10). */
#ifndef VISORLONGAN_H
#define VISORLONGAN_H

#include <stddef.h>
#include <stdint.h>

#ifdef __cplusplus
extern "C" {
#endif

/* ---- The version: of this header, and of the archive that is linked. They belong together if VISOR_VERSION == visor_version(). */

#define VISOR_VERSION_MAJOR 0
#define VISOR_VERSION_MINOR 8
#define VISOR_VERSION_PATCH 0
#define VISOR_VERSION_TEXT "0.8.0"
#define VISOR_VERSION (VISOR_VERSION_MAJOR * 65536 + VISOR_VERSION_MINOR * 256 + VISOR_VERSION_PATCH)

uint64_t visor_version(void);

/* ---- The request (2): what a plan is made from, besides the object's bytes. */

#define VISOR_REQUEST_WORDS 7

enum visor_request {
    VISOR_REQUEST_OPCODE = 0,      /* VISOR_OPCODE_SCALED or VISOR_OPCODE_COPY */
    VISOR_REQUEST_ULX = 1,         /* the scissor, in whole pixels from 0 to 1,023, signed; */
    VISOR_REQUEST_ULY = 2,         /*   lrx and lry are the first pixels outside it */
    VISOR_REQUEST_LRX = 3,
    VISOR_REQUEST_LRY = 4,
    VISOR_REQUEST_RENDER_MODE = 5, /* the object render mode; its low 32 bits, of which VISOR_RENDER_MODE_BILERP counts */
    VISOR_REQUEST_ADDRESS = 6      /* where the image is: the object's pointer (bytes 16 to 19), resolved by the host */
};

#define VISOR_OPCODE_SCALED 9  /* gSPBgRect1Cyc: an object of at least VISOR_SCALED_BYTES */
#define VISOR_OPCODE_COPY 10   /* gSPBgRectCopy: an object of at least VISOR_COPY_BYTES */
#define VISOR_SCALED_BYTES 36
#define VISOR_COPY_BYTES 40
#define VISOR_RENDER_MODE_BILERP 8

/* ---- Entries (9): eleven words, the kind and then the kind's numbers at the places below; the rest are 0. */

#define VISOR_ENTRY_WORDS 11

enum visor_kind {
    VISOR_KIND_IMAGE = 1, /* set the texture image */
    VISOR_KIND_TILE = 2,  /* set a tile: all but its bounds, width and height, which stay; its shifts become 0 */
    VISOR_KIND_SIZE = 3,  /* set a tile's bounds, and the width and height that follow from them */
    VISOR_KIND_LOAD = 4,  /* set a tile's bounds as VISOR_KIND_SIZE does, then load it from the texture image */
    VISOR_KIND_RECT = 5,  /* draw a textured rectangle with the tiles as they stand after the entries before it */
    VISOR_KIND_END = 9    /* no entry: visor_step answers it where the plan has ended, and visor_run never stores it */
};

enum visor_image {
    VISOR_IMAGE_FMT = 1,    /* 0 RGBA, 1 YUV, 2 CI, 3 IA, 4 I */
    VISOR_IMAGE_SIZ = 2,    /* 0 to 3: texels of 4, 8, 16, 32 bits */
    VISOR_IMAGE_WIDTH = 3,  /* the command's width field: columns less one */
    VISOR_IMAGE_ADDRESS = 4 /* bytes */
};

enum visor_tile {
    VISOR_TILE_INDEX = 1, /* 0 or 7 */
    VISOR_TILE_FMT = 2,
    VISOR_TILE_SIZ = 3,
    VISOR_TILE_LINE = 4,    /* words of 8 bytes from row to row in texture memory */
    VISOR_TILE_TMEM = 5,    /* where the tile begins in texture memory, in words of 8 bytes */
    VISOR_TILE_PALETTE = 6, /* the object's palette modulo 256 */
    VISOR_TILE_CMS = 7,     /* bit 0 mirror, bit 1 clamp */
    VISOR_TILE_CMT = 8,
    VISOR_TILE_MASKS = 9, /* bits that are kept of a coordinate; 0: it is clamped to the tile's bounds */
    VISOR_TILE_MASKT = 10
};

enum visor_size {
    VISOR_SIZE_INDEX = 1, /* 0 */
    VISOR_SIZE_ULS = 2,   /* quarters of a texel, the ends inclusive */
    VISOR_SIZE_ULT = 3,
    VISOR_SIZE_LRS = 4,
    VISOR_SIZE_LRT = 5
};

/* Of a finished copy plan the columns and rows of each load lie inside the image, and the tile's line times the rows fits texture
   memory (7.13). The bytes that fill the last word of a row may lie past the row's end. */
enum visor_load {
    VISOR_LOAD_INDEX = 1, /* 7 */
    VISOR_LOAD_ULS = 2,   /* quarters of a texel in the texture image, the ends inclusive */
    VISOR_LOAD_ULT = 3,
    VISOR_LOAD_LRS = 4,
    VISOR_LOAD_LRT = 5,
    VISOR_LOAD_WORDS = 6,  /* words of 8 bytes that each row has */
    VISOR_LOAD_ROWS = 7,   /* rows; row r goes to texture memory at the tile's tmem + r * the tile's line; of 32-bit texels */
                           /*   the first 16 bits go there and the others to the same place in the upper 2 KB */
    VISOR_LOAD_STRIDE = 8, /* bytes from row to row in memory */
    VISOR_LOAD_START = 9,  /* the address of the first byte */
    VISOR_LOAD_LENGTH = 10 /* bytes from the first to the last that is read */
};

/* The corners of a rectangle are quarters of a pixel. Copy: the ends are inclusive, (lrx - ulx) / 4 + 1 pixels across and
   (lry - uly) / 4 + 1 lines down. Scaled: the ends are exclusive, (lrx - ulx) / 4 across, which may leave a part of a pixel,
   and (lry - uly) / 4 lines down.

   EVERY CELL ONCE. Of every finished copy plan it is proved that its rectangles meet each cell of the clipped frame, 4 by 4
   quarters from the frame's left and upper edge on, exactly once, and meet nothing else (7.12): captions may be laid over it. */
enum visor_rect {
    VISOR_RECT_TILE = 1, /* 0 */
    VISOR_RECT_ULX = 2,
    VISOR_RECT_ULY = 3,
    VISOR_RECT_LRX = 4,
    VISOR_RECT_LRY = 5,
    VISOR_RECT_ULS = 6,  /* thirty-seconds of a texel, signed: where in the tile the first pixel is sampled */
    VISOR_RECT_ULT = 7,  /* likewise, signed */
    VISOR_RECT_DSDX = 8, /* 1,024ths of a texel from pixel to pixel, signed; a copy has 4,096, which is one texel (four a cycle) */
    VISOR_RECT_DTDY = 9, /* 1,024ths of a texel from line to line, signed */
    VISOR_RECT_ROW = 10  /* the image's row that the first line shows */
};

/* ---- The bank (5): eight tiles of seventeen words each; tile i begins at word i * VISOR_TILE_WORDS. */

#define VISOR_TILES 8
#define VISOR_TILE_WORDS 17
#define VISOR_BANK_WORDS 136

enum visor_bank {
    VISOR_BANK_ULS = 0, /* the bounds, in quarters of a texel */
    VISOR_BANK_ULT = 1,
    VISOR_BANK_LRS = 2,
    VISOR_BANK_LRT = 3,
    VISOR_BANK_WIDTH = 4,  /* max(1, floor((lrs - uls) / 4) + 1) */
    VISOR_BANK_HEIGHT = 5, /* max(1, floor((lrt - ult) / 4) + 1) */
    VISOR_BANK_FMT = 6,
    VISOR_BANK_SIZ = 7,
    VISOR_BANK_PALETTE = 8,
    VISOR_BANK_CMS = 9,
    VISOR_BANK_CMT = 10,
    VISOR_BANK_MASKS = 11,
    VISOR_BANK_MASKT = 12,
    VISOR_BANK_SHIFTS = 13,
    VISOR_BANK_SHIFTT = 14,
    VISOR_BANK_LINE = 15,
    VISOR_BANK_TMEM = 16
};

/* ---- The end (10), and its verdict (4). */

#define VISOR_END_WORDS 4

enum visor_end {
    VISOR_END_VERDICT = 0,    /* VISOR_VERDICT_FINISHED, or why the plan stops */
    VISOR_END_ENTRIES = 1,    /* entries that stand */
    VISOR_END_RECTANGLES = 2, /* rectangles among them */
    VISOR_END_TILE_WORDS = 3  /* the greatest rows * line of one load, in words of 8 bytes (10.2) */
};

/* The same four where visor_step answers VISOR_KIND_END: in the same order, after the kind; the six words after them are 0. */
enum visor_step_end {
    VISOR_STEP_END_VERDICT = 1,
    VISOR_STEP_END_ENTRIES = 2,
    VISOR_STEP_END_RECTANGLES = 3,
    VISOR_STEP_END_TILE_WORDS = 4
};

/* 1 to 6: nothing is written, neither plan nor bank. 7 to 10: the entries before the refusal stand. */
enum visor_verdict {
    VISOR_VERDICT_FINISHED = 0,
    VISOR_VERDICT_OPCODE = 1,
    VISOR_VERDICT_SHORT = 2,
    VISOR_VERDICT_SCISSOR = 3,
    VISOR_VERDICT_OBJECT = 4,
    VISOR_VERDICT_COPY = 5,
    VISOR_VERDICT_SLICES = 6,
    VISOR_VERDICT_TOO_BIG = 7,
    VISOR_VERDICT_PIECE = 8,
    VISOR_VERDICT_ADDRESS = 9,
    VISOR_VERDICT_FULL = 10
};

/* What a verdict says, as a sentence in English; of a number that is no verdict, that it is none. */
static inline const char *visor_verdict_text(uint64_t verdict) {
    switch (verdict) {
    case VISOR_VERDICT_FINISHED:
        return "The plan is complete.";
    case VISOR_VERDICT_OPCODE:
        return "The opcode is neither 9 (scaled) nor 10 (copy).";
    case VISOR_VERDICT_SHORT:
        return "The object has fewer than 40 bytes for a copy or 36 for a scaled background.";
    case VISOR_VERDICT_SCISSOR:
        return "A scissor edge lies outside 0 to 1,023.";
    case VISOR_VERDICT_OBJECT:
        return "The object has a width or height of 0, a size above 3, a format above 4 or an unknown load.";
    case VISOR_VERDICT_COPY:
        return "The copy object has a load other than 0xfff4, an image or a tmem_h under 4 units, a tmem_size_w of 0, tile memory "
               "fields whose product is another, or a flip above 1.";
    case VISOR_VERDICT_SLICES:
        return "The scaled object has an image under 4 units high, rows of less than 8 bytes, or rows so long that texture memory "
               "does not hold a strip of them.";
    case VISOR_VERDICT_TOO_BIG:
        return "A copy strip does not fit texture memory.";
    case VISOR_VERDICT_PIECE:
        return "A part of a scaled strip has no rows, no width or no place in texture memory.";
    case VISOR_VERDICT_ADDRESS:
        return "An image address, or the end of a load, leaves the 64-bit address space.";
    case VISOR_VERDICT_FULL:
        return "The plan buffer has no room for the next entry.";
    default:
        return "This number is no verdict.";
    }
}

/* ---- A planner between two steps (10.8), in words of the host's: visor_start writes them, visor_step takes them on.

   What the words say is the library's own, and belongs to one version of it (VISOR_VERSION). A host may copy, keep and restore
   them: with the bank's words that is a snapshot, and the plan goes on from there. It may have as many planners as it likes and
   step them in any order, a planner now in one thread and now in another. It changes none of the words, and keeps none for
   another version. */

#define VISOR_STATE_WORDS 39

/* ---- The drift of a scaled plan (11): five words for each rectangle. Distances are 1,024ths of an image row. */

#define VISOR_DRIFT_WORDS 5

enum visor_measured {
    VISOR_DRIFT_LINE = 0,     /* the lines of the plan's earlier rectangles */
    VISOR_DRIFT_STRIP = 1,    /* the number of its strip, counted from the image's origin, signed */
    VISOR_DRIFT_DISTANCE = 2, /* how far ahead of its exact place each of its lines samples the image, signed; below 0: behind it */
    VISOR_DRIFT_BEHIND = 3,   /* the least distance that the limits allow, signed */
    VISOR_DRIFT_AHEAD = 4     /* the greatest, signed */
};

#define VISOR_TOLD_WORDS 2

enum visor_told {
    VISOR_TOLD_RECTANGLES = 0, /* the rectangles that stand in drift */
    VISOR_TOLD_PROVED = 1      /* 1 where it is proved that each distance lies within its limits (11.1), else 0 */
};

/* ---- A copy object made from a picture (15): what visor_write_copy answers. */

/* 2, 4 and 11: nothing is written. */
enum visor_written {
    VISOR_WRITTEN_DONE = 0,
    VISOR_WRITTEN_SHORT = 2,
    VISOR_WRITTEN_OBJECT = 4,
    VISOR_WRITTEN_PICTURE = 11
};

/* What an answer of the writer says, as a sentence in English; of a number that is no answer, that it is none. */
static inline const char *visor_written_text(uint64_t number) {
    switch (number) {
    case VISOR_WRITTEN_DONE:
        return "The object is written.";
    case VISOR_WRITTEN_SHORT:
        return "The buffer has fewer than 40 bytes.";
    case VISOR_WRITTEN_OBJECT:
        return "The object would have a size above 3 or a format above 4.";
    case VISOR_WRITTEN_PICTURE:
        return "The picture has a width or height of 0 or above 16,383 texels, or a row that texture memory does not hold.";
    default:
        return "This number is no answer of the writer.";
    }
}

/* ---- What one cell of a copy shows (16): the scissor's words, and the answer of visor_sample. */

#define VISOR_SCISSOR_WORDS 4

/* The scissor alone: the words of a request from VISOR_REQUEST_ULX on, in their order. */
enum visor_scissor {
    VISOR_SCISSOR_ULX = 0,
    VISOR_SCISSOR_ULY = 1,
    VISOR_SCISSOR_LRX = 2,
    VISOR_SCISSOR_LRY = 3
};

#define VISOR_SAMPLE_WORDS 3

/* The answer; its words that are not named here are 0. */
enum visor_sampled {
    VISOR_SAMPLE_KIND = 0,   /* VISOR_SAMPLE_TEXEL, VISOR_SAMPLE_OUTSIDE or VISOR_SAMPLE_REFUSED */
    VISOR_SAMPLE_COLUMN = 1, /* of a texel: its column in the image, from 0 */
    VISOR_SAMPLE_ROW = 2,    /* of a texel: its row in the image, from 0 */
    VISOR_SAMPLE_VERDICT = 1 /* of a refusal: VISOR_VERDICT_SHORT, _SCISSOR, _OBJECT or _COPY */
};

enum visor_sample_kind {
    VISOR_SAMPLE_TEXEL = 0,
    VISOR_SAMPLE_OUTSIDE = 1, /* the cell is none of the clipped frame */
    VISOR_SAMPLE_REFUSED = 2
};

/* ---- The functions. */

/* A whole run: plans the request. The entries stand in plan from its first word on, VISOR_ENTRY_WORDS each; end has the four
   numbers; bank has what the entries set of the tiles. Every other word is as it was: those of plan beyond the last entry, and
   those of bank that no entry sets, whatever they hold. A run reads no word of bank.

   THE BANK IN THE MIDDLE OF A PLAN. bank comes back as it is after the *last* entry that stands. A rectangle or a load in the
   middle is meant for the tiles as they are *there*: a host that draws keeps the bank from before the run, and calls
   visor_apply for each entry before it acts on it. With all entries applied it has the bank that visor_run left, with one
   exception: a load that is refused (VISOR_VERDICT_ADDRESS) has already set the bounds of tile 7, which is no entry; take the
   bank of visor_run then. A host that stops in the middle goes on with the bank that it has applied so far.

   ADDRESSES. Every load entry has a start and a length whose sum is at most 2^64 - 1. A load that would reach further is refused,
   and has no entry.

   VISOR_VERDICT_FULL says that plan had no room for the next entry; the entries that fitted stand, and bank is theirs.
   Lengths: VISOR_REQUEST_WORDS, VISOR_BANK_WORDS, VISOR_END_WORDS; object and plan may have any. */
uint64_t visor_run(const uint8_t *object, size_t object_bytes, const uint64_t *request, size_t request_words, uint64_t *bank,
                   size_t bank_words, uint64_t *plan, size_t plan_words, uint64_t *end, size_t end_words);

/* The end of the whole plan, with no memory for its entries: a plan buffer of end[VISOR_END_ENTRIES] * VISOR_ENTRY_WORDS words
   has room for all of it, and visor_run then leaves the same end. No plan has more than 5,232,646 entries.
   Lengths: VISOR_REQUEST_WORDS, VISOR_END_WORDS. */
uint64_t visor_count(const uint8_t *object, size_t object_bytes, const uint64_t *request, size_t request_words, uint64_t *end,
                     size_t end_words);

/* One entry of a plan done to a bank: sets what a tile, a size or a load sets, and no other word; an image or a rectangle sets
   nothing. Answers 1, and changes nothing, also where the words are no entry's: another kind, a tile, size or load with an
   index above 7, or a size or load with a bound above 65,535.
   Lengths: VISOR_ENTRY_WORDS, VISOR_BANK_WORDS. */
uint64_t visor_apply(const uint64_t *entry, size_t entry_words, uint64_t *bank, size_t bank_words);

/* A planner with the request's whole plan to come, in the words of state. Any object and any request are fine: one that is
   refused ends at its first step. Neither is needed any more after the call.
   Lengths: VISOR_REQUEST_WORDS, VISOR_STATE_WORDS; object may have any. */
uint64_t visor_start(const uint8_t *object, size_t object_bytes, const uint64_t *request, size_t request_words, uint64_t *state,
                     size_t state_words);

/* One step of a planner: out has the next entry, as visor_run would store it, or the end, VISOR_KIND_END and its numbers
   (visor_step_end); state has the planner with the rest to come. bank has what the step sets, and no other word of it changes:
   what the entry sets, as visor_apply has it, so that a host acts on the entry with this bank; and at the end of a plan whose
   load is refused by VISOR_VERDICT_ADDRESS the bounds of tile 7, which that load has set. After the end every further call
   answers the same end and changes neither state nor bank. VISOR_VERDICT_FULL never comes: there is no buffer.

   Answers 1, and changes nothing, also where the words of state are no planner's. Damaged words, or those of another version,
   may happen to be some planner's: then that one is stepped.

   STEP OR RUN. visor_run makes a whole plan at once, in some 6 to 12 ns an entry, and wants a buffer for it. visor_step takes
   some 50 to 100 ns a call, however far the plan is, and wants VISOR_STATE_WORDS words and no buffer: for a progress bar, for an
   inspector, for a cabinet that shares a frame's time. The share that is done is the entries so far of those that visor_count
   says.
   Lengths: VISOR_STATE_WORDS, VISOR_BANK_WORDS, VISOR_ENTRY_WORDS. */
uint64_t visor_step(uint64_t *state, size_t state_words, uint64_t *bank, size_t bank_words, uint64_t *out, size_t out_words);

/* How far the lines of a scaled plan are from their exact place in the image: drift has VISOR_DRIFT_WORDS words for each of the
   plan's rectangles, in order, as many as there is room for, and told says how many. visor_count says how many rectangles a plan
   has. The words beyond are as they were. A plan that is copied does not drift, and has none.
   A line step is the object's scale_h, or 1 where that is 0. The limit behind is one line step and 30 more, or 1,022 more where
   image_y_orig is no multiple of 32 and so lies between two rows. The limit ahead is one line step, and a 1,024th of one more
   for each strip from the origin.
   Lengths: VISOR_REQUEST_WORDS, VISOR_TOLD_WORDS; object and drift may have any. */
uint64_t visor_drift(const uint8_t *object, size_t object_bytes, const uint64_t *request, size_t request_words, uint64_t *drift,
                     size_t drift_words, uint64_t *told, size_t told_words);

/* A copy object made from a picture (15.1): the first VISOR_COPY_BYTES bytes of out become an object that shows all of it, and the
   bytes beyond stay. width and height are texels; fmt and siz are numbers as in VISOR_IMAGE_FMT and VISOR_IMAGE_SIZ; pointer stands
   in bytes 16 to 19, and may be any. The frame is as large as the picture and lies at 0, the load is 0xfff4, tmem_size_w is the
   words of one row of the picture in texture memory, tmem_h is 4 times the rows that fit there at once, tmem_load_sh and tmem_size
   are their product, and all other fields are 0 (15.2). From row to row a plan goes on by whole bytes: a picture of 4-bit texels
   whose rows begin at whole bytes wants an even width.

   REFUSALS, in this order. VISOR_WRITTEN_SHORT: out has fewer than VISOR_COPY_BYTES bytes. VISOR_WRITTEN_OBJECT: siz is above 3 or
   fmt is above 4. VISOR_WRITTEN_PICTURE: width or height is 0 or above 16,383, or one row needs more words than texture memory
   has for it, 256 where fmt is 2 (CI) or siz is 3, else 512. So the widest picture of siz 0 to 3 has 8,192, 4,096, 2,048 and 1,024
   texels, and with fmt 2 it has 4,096, 2,048, 1,024 and 1,024.

   AFTERWARDS a host may set frame_x, frame_y, frame_w, frame_h, image_x and image_y to any numbers and image_flip to 0 or 1, and
   plan under any scissor: no such plan ends with VISOR_VERDICT_TOO_BIG (15.3).
   Lengths: out may have any. */
uint64_t visor_write_copy(uint64_t width, uint64_t height, uint64_t fmt, uint64_t siz, uint32_t pointer, uint8_t *out,
                          size_t out_bytes);

/* What one cell of a copied background shows (16): sample becomes VISOR_SAMPLE_TEXEL with a column and a row of the image. column and
   line count the cells of the clipped frame across and down, from 0 at its left and upper edge; a cell is 4 by 4 quarters (7.12). A
   cell that the clipped frame does not have is answered by VISOR_SAMPLE_OUTSIDE, and of an empty frame every cell is. column and
   line may be any numbers. The object is read as one of VISOR_OPCODE_COPY, whatever the host plans it with.

   REFUSALS, in this order and before VISOR_SAMPLE_OUTSIDE: VISOR_VERDICT_SHORT, VISOR_VERDICT_SCISSOR, VISOR_VERDICT_OBJECT,
   VISOR_VERDICT_COPY, where a copy of this object under this scissor is refused by them. No other verdict comes: where the plan ends
   by VISOR_VERDICT_TOO_BIG, VISOR_VERDICT_ADDRESS or VISOR_VERDICT_FULL, the cells are answered all the same.

   BESIDE A PLAN it is proved (16.4): of each cell of a finished copy plan, the one rectangle that meets it shows there, by the load
   before it, this column and row, if the load has at most 1,024 columns or the frame is not flipped. So a host may read them off:
   cell i of a rectangle shows number uls / 32 + i of the load, where 0 is the load's first column, -1 is the first too and -2 the
   second, counted down; line j of it shows the load's first row plus j.
   Lengths: VISOR_SCISSOR_WORDS, VISOR_SAMPLE_WORDS; object may have any. */
uint64_t visor_sample(const uint8_t *object, size_t object_bytes, const uint64_t *scissor, size_t scissor_words, uint64_t column,
                      uint64_t line, uint64_t *sample, size_t sample_words);

#ifdef __cplusplus
}
#endif

#endif
