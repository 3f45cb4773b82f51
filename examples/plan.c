/* Plans a background from C and prints the plan as the program bgplan does, one line an entry, then the end.

       cc plan.c $(pkg-config --cflags --libs visorlongan) -o plan
       ./plan                       case L, a small copied background
       ./plan RECORD                a file of 61 bytes: object 40, scissor 4 x 2, render mode 4, opcode 1, address 8, all big-endian
       ./plan --step [RECORD]       the same lines, by a planner that is stepped
       ./plan --cell X Y [RECORD]   without a plan: the image's column and row that one cell of a copied background shows, or that it is outside

   Exit status: 0 planned or answered, 1 refused (the verdict's sentence goes to standard error), 2 wrong use, 3 no memory. It compiles as C99 and as C++. */
#include <visorlongan.h>

#include <errno.h>
#include <inttypes.h>
#include <stdio.h>
#include <stdlib.h>
#include <string.h>

#define RECORD_BYTES 61

/* Case L: image and frame of 64 by 8 units, 16-bit texels, at address 4096, under a scissor of 320 by 240. */
static const uint8_t CASE_L[RECORD_BYTES] = {
    0, 0, 0, 64, 0, 0, 0, 64, 0, 0, 0, 8, 0, 0, 0, 8, 0, 0, 0, 0, 0xff, 0xf4, 0, 2, 0, 0, 0, 0, 0, 0, 0, 8,
    0, 8, 0, 0, 0, 1, 0, 0, 0, 0, 0, 0, 1, 64, 0, 240, 0, 0, 0, 0, 10, 0, 0, 0, 0, 0, 0, 16, 0};

static uint64_t big_endian(const uint8_t *bytes, int count) {
    uint64_t number = 0;
    for (int i = 0; i < count; i++) number = number << 8 | bytes[i];
    return number;
}

static void request_of(const uint8_t *record, uint64_t *request) {
    request[VISOR_REQUEST_OPCODE] = record[52];
    request[VISOR_REQUEST_ULX] = big_endian(record + 40, 2);
    request[VISOR_REQUEST_ULY] = big_endian(record + 42, 2);
    request[VISOR_REQUEST_LRX] = big_endian(record + 44, 2);
    request[VISOR_REQUEST_LRY] = big_endian(record + 46, 2);
    request[VISOR_REQUEST_RENDER_MODE] = big_endian(record + 48, 4);
    request[VISOR_REQUEST_ADDRESS] = big_endian(record + 53, 8);
}

static void print_image(const uint64_t *e) {
    printf("%8" PRIu64 "%8" PRIu64 "%8" PRIu64 "%21" PRIu64, e[VISOR_IMAGE_FMT], e[VISOR_IMAGE_SIZ], e[VISOR_IMAGE_WIDTH],
           e[VISOR_IMAGE_ADDRESS]);
}

static void print_tile(const uint64_t *e) {
    printf("%8" PRIu64 "%8" PRIu64 "%8" PRIu64 "%8" PRIu64 "%8" PRIu64, e[VISOR_TILE_INDEX], e[VISOR_TILE_FMT],
           e[VISOR_TILE_SIZ], e[VISOR_TILE_LINE], e[VISOR_TILE_TMEM]);
    printf("%8" PRIu64 "%8" PRIu64 "%8" PRIu64 "%8" PRIu64 "%8" PRIu64, e[VISOR_TILE_PALETTE], e[VISOR_TILE_CMS],
           e[VISOR_TILE_CMT], e[VISOR_TILE_MASKS], e[VISOR_TILE_MASKT]);
}

static void print_size(const uint64_t *e) {
    printf("%8" PRIu64 "%8" PRIu64 "%8" PRIu64 "%8" PRIu64 "%8" PRIu64, e[VISOR_SIZE_INDEX], e[VISOR_SIZE_ULS],
           e[VISOR_SIZE_ULT], e[VISOR_SIZE_LRS], e[VISOR_SIZE_LRT]);
}

static void print_load(const uint64_t *e) {
    printf("%8" PRIu64 "%8" PRIu64 "%8" PRIu64 "%8" PRIu64 "%8" PRIu64, e[VISOR_LOAD_INDEX], e[VISOR_LOAD_ULS],
           e[VISOR_LOAD_ULT], e[VISOR_LOAD_LRS], e[VISOR_LOAD_LRT]);
    printf("%8" PRIu64 "%8" PRIu64 "%8" PRIu64 "%21" PRIu64 "%21" PRIu64, e[VISOR_LOAD_WORDS], e[VISOR_LOAD_ROWS],
           e[VISOR_LOAD_STRIDE], e[VISOR_LOAD_START], e[VISOR_LOAD_LENGTH]);
}

/* Four of a rectangle's numbers are signed: a cast gives the sign back. */
static void print_rect(const uint64_t *e) {
    printf("%8" PRIu64 "%8" PRIu64 "%8" PRIu64 "%8" PRIu64 "%8" PRIu64, e[VISOR_RECT_TILE], e[VISOR_RECT_ULX],
           e[VISOR_RECT_ULY], e[VISOR_RECT_LRX], e[VISOR_RECT_LRY]);
    printf("%8" PRId64 "%8" PRId64 "%8" PRId64 "%8" PRId64 "%8" PRIu64, (int64_t)e[VISOR_RECT_ULS],
           (int64_t)e[VISOR_RECT_ULT], (int64_t)e[VISOR_RECT_DSDX], (int64_t)e[VISOR_RECT_DTDY], e[VISOR_RECT_ROW]);
}

static void print_entry(const uint64_t *e) {
    printf("%2" PRIu64, e[0]);
    switch (e[0]) {
    case VISOR_KIND_IMAGE:
        print_image(e);
        break;
    case VISOR_KIND_TILE:
        print_tile(e);
        break;
    case VISOR_KIND_SIZE:
        print_size(e);
        break;
    case VISOR_KIND_LOAD:
        print_load(e);
        break;
    case VISOR_KIND_RECT:
        print_rect(e);
        break;
    default: /* no plan has another kind */
        break;
    }
    printf("\n");
}

/* The four numbers of an end, and the exit status that they make. */
static int print_end(const uint64_t *end) {
    printf(" 9%8" PRIu64 "%8" PRIu64 "%8" PRIu64 "%8" PRIu64 "\n", end[VISOR_END_VERDICT], end[VISOR_END_ENTRIES],
           end[VISOR_END_RECTANGLES], end[VISOR_END_TILE_WORDS]);
    if (end[VISOR_END_VERDICT] == VISOR_VERDICT_FINISHED) return 0;
    fprintf(stderr, "plan: %s\n", visor_verdict_text(end[VISOR_END_VERDICT]));
    return 1;
}

/* Counts the plan, lends it as many words, and goes through its entries in order. Each is done to `bank` before it is used: a renderer would load and draw
   there, with the tiles as they are in `bank`, and not with those that the whole plan leaves in `after`. */
static int plan(const uint8_t *record) {
    uint64_t request[VISOR_REQUEST_WORDS], end[VISOR_END_WORDS];
    uint64_t after[VISOR_BANK_WORDS] = {0}, bank[VISOR_BANK_WORDS] = {0};
    request_of(record, request);
    visor_count(record, VISOR_COPY_BYTES, request, VISOR_REQUEST_WORDS, end, VISOR_END_WORDS);
    size_t words = (size_t)end[VISOR_END_ENTRIES] * VISOR_ENTRY_WORDS;
    uint64_t *entries = (uint64_t *)malloc(words > 0 ? words * sizeof *entries : 1);
    if (!entries) {
        fprintf(stderr, "plan: no memory for %" PRIu64 " entries\n", end[VISOR_END_ENTRIES]);
        return 3;
    }
    visor_run(record, VISOR_COPY_BYTES, request, VISOR_REQUEST_WORDS, after, VISOR_BANK_WORDS, entries, words, end,
              VISOR_END_WORDS);
    for (const uint64_t *e = entries; e < entries + words; e += VISOR_ENTRY_WORDS) {
        visor_apply(e, VISOR_ENTRY_WORDS, bank, VISOR_BANK_WORDS);
        print_entry(e);
    }
    free(entries);
    return print_end(end);
}

/* The plan entry by entry, with no memory for it. A renderer would load and draw after each step, with the tiles as they are in `bank`, and may leave the loop
   whenever a frame's time is used up: `state` and `bank` are all that it needs to go on. */
static int step(const uint8_t *record) {
    uint64_t request[VISOR_REQUEST_WORDS], state[VISOR_STATE_WORDS], out[VISOR_ENTRY_WORDS];
    uint64_t bank[VISOR_BANK_WORDS] = {0};
    request_of(record, request);
    visor_start(record, VISOR_COPY_BYTES, request, VISOR_REQUEST_WORDS, state, VISOR_STATE_WORDS);
    while (visor_step(state, VISOR_STATE_WORDS, bank, VISOR_BANK_WORDS, out, VISOR_ENTRY_WORDS) == 0) {
        if (out[0] == VISOR_KIND_END) return print_end(out + VISOR_STEP_END_VERDICT);
        print_entry(out);
    }
    fprintf(stderr, "plan: the planner's words are damaged\n");
    return 2;
}

/* One cell of a copied background. The scissor's words are those of a request, in the same order. */
static int cell(const uint8_t *record, uint64_t column, uint64_t line) {
    uint64_t request[VISOR_REQUEST_WORDS], sample[VISOR_SAMPLE_WORDS];
    request_of(record, request);
    if (request[VISOR_REQUEST_OPCODE] != VISOR_OPCODE_COPY) {
        fprintf(stderr, "plan: only cells of copied backgrounds can be asked for\n");
        return 2;
    }
    visor_sample(record, VISOR_COPY_BYTES, request + VISOR_REQUEST_ULX, VISOR_SCISSOR_WORDS, column, line, sample, VISOR_SAMPLE_WORDS);
    if (sample[VISOR_SAMPLE_KIND] == VISOR_SAMPLE_REFUSED) {
        fprintf(stderr, "plan: %s\n", visor_verdict_text(sample[VISOR_SAMPLE_VERDICT]));
        return 1;
    }
    if (sample[VISOR_SAMPLE_KIND] == VISOR_SAMPLE_OUTSIDE) {
        printf("outside\n");
    } else {
        printf("column %" PRIu64 ", row %" PRIu64 "\n", sample[VISOR_SAMPLE_COLUMN], sample[VISOR_SAMPLE_ROW]);
    }
    return 0;
}

static int read_number(const char *text, uint64_t *number) {
    char *end;
    errno = 0; /* strtoull tells only by it that a number has more than 64 bits */
    *number = strtoull(text, &end, 10);
    return errno == 0 && *text >= '0' && *text <= '9' && *end == '\0';
}

static int read_record(const char *path, uint8_t *record) {
    FILE *file = fopen(path, "rb");
    if (!file) return 0;
    size_t count = fread(record, 1, RECORD_BYTES, file);
    fclose(file);
    return count == RECORD_BYTES;
}

int main(int count, char **arguments) {
    uint8_t record[RECORD_BYTES];
    if (visor_version() != VISOR_VERSION) {
        fprintf(stderr, "plan: the header is version " VISOR_VERSION_TEXT ", and the archive is another\n");
        return 2;
    }
    memcpy(record, CASE_L, RECORD_BYTES);
    int stepping = count > 1 && strcmp(arguments[1], "--step") == 0;
    int asking = count > 3 && strcmp(arguments[1], "--cell") == 0;
    uint64_t column = 0, line = 0;
    int right = !asking || (read_number(arguments[2], &column) && read_number(arguments[3], &line));
    int records = count - 1 - (asking ? 3 : stepping);
    if (!right || records > 1 || (records == 1 && !read_record(arguments[count - 1], record))) {
        fprintf(stderr, "usage: plan [--step | --cell X Y] [RECORD], a file of %d bytes\n", RECORD_BYTES);
        return 2;
    }
    if (asking) return cell(record, column, line);
    return stepping ? step(record) : plan(record);
}
