//! The C header, compiled as C and as C++ by the machine's compilers (`cc` and `c++`, or what CC and
//! CXX name) and linked to the library. Where there is none the test fails: a header that nobody
//! compiled is not tested.

use std::process::Command;
use visorlongan::{NoObject, Verdict};

const PROGRAM: &str = r#"
#include "visorlongan.h"
#include <stdio.h>

static uint64_t bank[VISOR_BANK_WORDS], plan[6 * VISOR_ENTRY_WORDS], end[VISOR_END_WORDS];
static uint64_t state[VISOR_STATE_WORDS], out[VISOR_ENTRY_WORDS];

/* How many words of the bank, all ones before, a call has set. */
static int set_words(void) {
    int n = 0;
    for (int i = 0; i < VISOR_BANK_WORDS; i++) n += bank[i] != UINT64_MAX;
    return n;
}

/* Slices of no elements may have null pointers. */
static void nothing(const uint8_t *object, const uint64_t *request) {
    printf("%d", (int)visor_run(NULL, 0, request, VISOR_REQUEST_WORDS, bank, VISOR_BANK_WORDS, plan, 66, end, VISOR_END_WORDS));
    printf(" %d", (int)end[VISOR_END_VERDICT]);
    printf(" %d", (int)visor_run(object, 40, request, VISOR_REQUEST_WORDS, bank, VISOR_BANK_WORDS, NULL, 0, end, VISOR_END_WORDS));
    printf(" %d", (int)end[VISOR_END_VERDICT]);
    printf(" %d", (int)visor_run(NULL, 0, NULL, 0, NULL, 0, NULL, 0, NULL, 0));
    printf(" %d", (int)visor_count(NULL, 0, request, VISOR_REQUEST_WORDS, end, VISOR_END_WORDS));
    printf(" %d", (int)visor_count(NULL, 0, NULL, 0, NULL, 0));
    printf(" %d %d\n", (int)visor_apply(NULL, 0, NULL, 0), set_words());
}

/* The same of a planner: one of no object, calls without arrays, and words that are no planner's. */
static void no_planner(const uint64_t *request) {
    printf("%d %d", VISOR_STATE_WORDS, (int)visor_start(NULL, 0, request, VISOR_REQUEST_WORDS, state, VISOR_STATE_WORDS));
    printf(" %d", (int)visor_step(state, VISOR_STATE_WORDS, bank, VISOR_BANK_WORDS, out, VISOR_ENTRY_WORDS));
    printf(" %d %d", (int)out[0], (int)out[VISOR_STEP_END_VERDICT]);
    printf(" %d", (int)visor_start(NULL, 0, NULL, 0, NULL, 0));
    printf(" %d", (int)visor_step(NULL, 0, NULL, 0, NULL, 0));
    printf(" %d", (int)visor_step(NULL, 0, bank, VISOR_BANK_WORDS, out, VISOR_ENTRY_WORDS));
    printf(" %d", (int)visor_step(state, VISOR_STATE_WORDS, NULL, 0, out, VISOR_ENTRY_WORDS));
    printf(" %d", (int)visor_step(state, VISOR_STATE_WORDS, bank, VISOR_BANK_WORDS, NULL, 0));
    for (int i = 0; i < VISOR_STATE_WORDS; i++) state[i] = UINT64_MAX;
    printf(" %d", (int)visor_step(state, VISOR_STATE_WORDS, bank, VISOR_BANK_WORDS, out, VISOR_ENTRY_WORDS));
    printf(" %d %d\n", (int)out[0], set_words());
}

static void whole(const uint8_t *object, const uint64_t *request) {
    printf("%d", (int)visor_run(object, 40, request, VISOR_REQUEST_WORDS, bank, VISOR_BANK_WORDS, plan, 66, end, VISOR_END_WORDS));
    for (int i = 0; i < VISOR_END_WORDS; i++) printf(" %d", (int)end[i]);
    printf(" %d\n", set_words());
    printf("%d", (int)visor_count(object, 40, request, VISOR_REQUEST_WORDS, end, VISOR_END_WORDS));
    for (int i = 0; i < VISOR_END_WORDS; i++) printf(" %d", (int)end[i]);
    printf("\n");
}

/* The entries applied one after another: what the run has set, once more. */
static void applied(void) {
    uint64_t run[VISOR_BANK_WORDS];
    int same = 1;
    for (int i = 0; i < VISOR_BANK_WORDS; i++) run[i] = bank[i], bank[i] = UINT64_MAX;
    for (int n = 0; n < 6; n++) {
        printf("%d%d ", (int)plan[n * VISOR_ENTRY_WORDS], (int)visor_apply(plan + n * VISOR_ENTRY_WORDS, VISOR_ENTRY_WORDS, bank, VISOR_BANK_WORDS));
    }
    for (int i = 0; i < VISOR_BANK_WORDS; i++) same &= run[i] == bank[i];
    printf("%d %d %d\n", same, (int)bank[7 * VISOR_TILE_WORDS + VISOR_BANK_LINE], (int)bank[VISOR_BANK_WIDTH]);
}

/* Stepped: the run's entries and its bank, once more; then the end, again and again. */
static void stepped(const uint8_t *object, const uint64_t *request) {
    uint64_t run[VISOR_BANK_WORDS];
    int same = 1;
    for (int i = 0; i < VISOR_BANK_WORDS; i++) run[i] = bank[i], bank[i] = UINT64_MAX;
    printf("%d", (int)visor_start(object, 40, request, VISOR_REQUEST_WORDS, state, VISOR_STATE_WORDS));
    for (int n = 0; n < 8; n++) {
        int status = (int)visor_step(state, VISOR_STATE_WORDS, bank, VISOR_BANK_WORDS, out, VISOR_ENTRY_WORDS);
        printf(" %d%d", (int)out[0], status);
        for (int i = 0; n < 6 && i < VISOR_ENTRY_WORDS; i++) same &= out[i] == plan[n * VISOR_ENTRY_WORDS + i];
    }
    for (int i = 0; i < VISOR_BANK_WORDS; i++) same &= run[i] == bank[i];
    printf(" %d %d", same, out[0] == VISOR_KIND_END);
    printf(" %d %d", (int)out[VISOR_STEP_END_VERDICT], (int)out[VISOR_STEP_END_ENTRIES]);
    printf(" %d %d\n", (int)out[VISOR_STEP_END_RECTANGLES], (int)out[VISOR_STEP_END_TILE_WORDS]);
}

/* The drift of case H: 40 rectangles, the second at line 6, 144 of 1,024 ahead; room for two alone; calls without arrays. Then of case O, half a row lower. */
static void drifted(uint64_t *request) {
    static uint64_t drift[40 * VISOR_DRIFT_WORDS], told[VISOR_TOLD_WORDS];
    uint8_t object[VISOR_SCALED_BYTES] = {0};
    object[2] = 5; object[6] = 5; object[10] = 3; object[11] = 0xc0; object[14] = 3; object[15] = 0xc0;
    object[20] = 0xff; object[21] = 0xf4; object[23] = 2; object[28] = 3; object[29] = 0xe8; object[30] = 3; object[31] = 0xe8;
    request[VISOR_REQUEST_OPCODE] = VISOR_OPCODE_SCALED;
    printf("%d", (int)visor_drift(object, sizeof object, request, VISOR_REQUEST_WORDS, drift, 40 * VISOR_DRIFT_WORDS, told, VISOR_TOLD_WORDS));
    printf(" %d %d", (int)told[VISOR_TOLD_RECTANGLES], (int)told[VISOR_TOLD_PROVED]);
    for (int i = 0; i < VISOR_DRIFT_WORDS; i++) printf(" %d", (int)(int64_t)drift[VISOR_DRIFT_WORDS + i]);
    printf(" %d", (int)visor_drift(object, sizeof object, request, VISOR_REQUEST_WORDS, drift, 14, told, VISOR_TOLD_WORDS));
    printf(" %d", (int)told[VISOR_TOLD_RECTANGLES]);
    printf(" %d", (int)visor_drift(object, sizeof object, request, VISOR_REQUEST_WORDS, NULL, 0, told, VISOR_TOLD_WORDS));
    printf(" %d", (int)visor_drift(NULL, 0, request, VISOR_REQUEST_WORDS, NULL, 0, told, VISOR_TOLD_WORDS));
    printf(" %d", (int)visor_drift(NULL, 0, NULL, 0, NULL, 0, NULL, 0));
    printf(" %d\n", drift[VISOR_DRIFT_WORDS + VISOR_DRIFT_DISTANCE] == 144 && drift[3 * VISOR_DRIFT_WORDS + VISOR_DRIFT_STRIP] == 3);
    object[9] = 16; object[35] = 16;
    printf("%d", (int)visor_drift(object, sizeof object, request, VISOR_REQUEST_WORDS, drift, 40 * VISOR_DRIFT_WORDS, told, VISOR_TOLD_WORDS));
    printf(" %d %d", (int)told[VISOR_TOLD_RECTANGLES], (int)told[VISOR_TOLD_PROVED]);
    for (int i = 0; i < VISOR_DRIFT_WORDS; i++) printf(" %d", (int)(int64_t)drift[VISOR_DRIFT_WORDS + i]);
    printf("\n");
}

/* An object of 320 by 240 texels of 16 bits in a buffer of one byte more, and its plan; then refusals in their order, none of which writes. */
static void written(uint64_t *request) {
    uint8_t made[VISOR_COPY_BYTES + 1];
    int kept = 0;
    for (int i = 0; i <= VISOR_COPY_BYTES; i++) made[i] = 77;
    printf("%d", (int)visor_write_copy(320, 240, 0, 2, 0x06000000, made, sizeof made));
    printf(" %d %d %d %d", made[2], made[16], made[31], made[VISOR_COPY_BYTES]);
    request[VISOR_REQUEST_OPCODE] = VISOR_OPCODE_COPY;
    printf(" %d", (int)visor_count(made, VISOR_COPY_BYTES, request, VISOR_REQUEST_WORDS, end, VISOR_END_WORDS));
    for (int i = 0; i < VISOR_END_WORDS; i++) printf(" %d", (int)end[i]);
    for (int i = 0; i <= VISOR_COPY_BYTES; i++) made[i] = 77;
    printf("\n%d", (int)visor_write_copy(320, 240, 0, 2, 0, NULL, 0));
    printf(" %d", (int)visor_write_copy(0, 240, 0, 4, 0, made, VISOR_COPY_BYTES - 1));
    printf(" %d", (int)visor_write_copy(0, 240, 0, 4, 0, made, VISOR_COPY_BYTES));
    printf(" %d", (int)visor_write_copy(320, 240, 5, 2, 0, made, VISOR_COPY_BYTES));
    printf(" %d", (int)visor_write_copy(0, 240, 0, 2, 0, made, VISOR_COPY_BYTES));
    printf(" %d", (int)visor_write_copy(2049, 240, 0, 2, 0, made, VISOR_COPY_BYTES));
    printf(" %d", (int)visor_write_copy(UINT64_MAX, UINT64_MAX, 4, 0, UINT32_MAX, made, sizeof made));
    for (int i = 0; i <= VISOR_COPY_BYTES; i++) kept += made[i] == 77;
    printf(" %d\n", kept);
}

static uint64_t cell[VISOR_SAMPLE_WORDS];

static void sample(const uint8_t *object, size_t bytes, const uint64_t *scissor, uint64_t column) {
    printf("%d ", (int)visor_sample(object, bytes, scissor, VISOR_SCISSOR_WORDS, column, 0, cell, VISOR_SAMPLE_WORDS));
    printf("%d:%d,%d ", (int)cell[VISOR_SAMPLE_KIND], (int)cell[VISOR_SAMPLE_COLUMN], (int)cell[VISOR_SAMPLE_ROW]);
}

/* Case L from column 12 on, two cells and a line of it left out: its cells at the wrap, flipped too, and cells outside. */
static void sampled(uint8_t *object) {
    uint64_t scissor[VISOR_SCISSOR_WORDS];
    scissor[VISOR_SCISSOR_ULX] = 2; scissor[VISOR_SCISSOR_ULY] = 1;
    scissor[VISOR_SCISSOR_LRX] = 320; scissor[VISOR_SCISSOR_LRY] = 240;
    object[0] = 1; object[1] = 128;
    sample(object, VISOR_COPY_BYTES, scissor, 1);
    sample(object, VISOR_COPY_BYTES, scissor, 2);
    object[27] = 1;
    sample(object, VISOR_COPY_BYTES, scissor, 9);
    sample(object, VISOR_COPY_BYTES, scissor, 10);
    printf("%d ", cell[VISOR_SAMPLE_KIND] == VISOR_SAMPLE_TEXEL);
    sample(object, VISOR_COPY_BYTES, scissor, 14);
    printf("%d ", cell[VISOR_SAMPLE_KIND] == VISOR_SAMPLE_OUTSIDE);
    sample(object, VISOR_COPY_BYTES, scissor, UINT64_MAX);
    printf("%d\n", VISOR_REQUEST_ULX + VISOR_SCISSOR_LRY == VISOR_REQUEST_LRY);
}

/* Refusals in their order, for a cell that is outside, and calls that change nothing: by their lengths, or without arrays. */
static void no_sample(uint8_t *object, uint64_t *request) {
    uint64_t *scissor = request + VISOR_REQUEST_ULX;
    object[27] = 2;
    sample(object, VISOR_COPY_BYTES, scissor, UINT64_MAX);
    printf("%d ", cell[VISOR_SAMPLE_KIND] == VISOR_SAMPLE_REFUSED && cell[VISOR_SAMPLE_VERDICT] == VISOR_VERDICT_COPY);
    object[22] = 5;
    sample(object, VISOR_COPY_BYTES, scissor, UINT64_MAX);
    scissor[VISOR_SCISSOR_LRX] = 1024;
    sample(object, VISOR_COPY_BYTES, scissor, UINT64_MAX);
    sample(NULL, 0, scissor, UINT64_MAX);
    for (int i = 0; i < VISOR_SAMPLE_WORDS; i++) cell[i] = 77;
    printf("%d", (int)visor_sample(object, VISOR_COPY_BYTES, scissor, VISOR_SCISSOR_WORDS - 1, 0, 0, cell, VISOR_SAMPLE_WORDS));
    printf(" %d", (int)visor_sample(object, VISOR_COPY_BYTES, scissor, VISOR_SCISSOR_WORDS, 0, 0, cell, VISOR_SAMPLE_WORDS - 1));
    printf(" %d", (int)visor_sample(NULL, 0, NULL, 0, 0, 0, cell, VISOR_SAMPLE_WORDS));
    printf(" %d", (int)visor_sample(NULL, 0, NULL, 0, 0, 0, NULL, 0));
    printf(" %d\n", cell[0] + cell[1] + cell[2] == 3 * 77);
}

int main(void) {
    uint8_t object[VISOR_COPY_BYTES] = {0};
    object[3] = 64; object[7] = 64; object[11] = 8; object[15] = 8;
    object[20] = 0xff; object[21] = 0xf4; object[23] = 2;
    object[31] = 8; object[33] = 8; object[37] = 1;
    uint64_t request[VISOR_REQUEST_WORDS] = {VISOR_OPCODE_COPY, 0, 0, 320, 240, 0, 4096};
    for (int i = 0; i < VISOR_BANK_WORDS; i++) bank[i] = UINT64_MAX;
    printf("%s %d\n", VISOR_VERSION_TEXT, visor_version() == VISOR_VERSION);
    nothing(object, request);
    no_planner(request);
    whole(object, request);
    applied();
    stepped(object, request);
    drifted(request);
    written(request);
    sampled(object);
    no_sample(object, request);
    for (uint64_t verdict = 0; verdict <= VISOR_VERDICT_FULL + 1; verdict++) printf("%s\n", visor_verdict_text(verdict));
    for (uint64_t number = 0; number <= VISOR_WRITTEN_PICTURE + 1; number++) printf("%s\n", visor_written_text(number));
    return 0;
}
"#;

/// Case L, with a bank whose words fit no field: a refused run sets none of them, and a whole one the
/// words of tiles 0 and 7 alone.
fn expected() -> String {
    let mut lines = vec![
        concat!(env!("CARGO_PKG_VERSION"), " 1"),
        "0 2 0 10 1 0 1 1 0",
        "39 0 0 9 2 1 1 1 1 1 1 9 0",
        "0 0 6 1 8 34",
        "0 0 6 1 8",
        "10 20 20 30 40 50 1 4 16",
        "0 10 20 20 30 40 50 90 90 1 1 0 6 1 8",
        "0 40 1 6 1 144 -1030 1000 0 2 0 0 1 1",
        "0 40 1 6 1 -368 -2022 1000",
        "0 5 6 24 77 0 0 201 40 480",
        "2 2 4 4 11 11 11 41",
        "0 0:15,1 0 0:0,1 0 0:0,1 0 0:15,1 1 0 1:0,0 1 0 1:0,0 1",
        "0 2:5,0 1 0 2:4,0 0 2:3,0 0 2:2,0 1 1 1 1 1",
    ];
    lines.extend(Verdict::ALL.iter().map(|verdict| verdict.sentence()));
    lines.push("This number is no verdict.");
    lines.extend((0..=12).map(|number| match number {
        0 => "The object is written.",
        2 => "The buffer has fewer than 40 bytes.",
        4 => NoObject::Texels.sentence(),
        11 => NoObject::Picture.sentence(),
        _ => "This number is no answer of the writer.",
    }));
    lines.join("\n") + "\n"
}

fn compiled_and_run(variable: &str, default: &str, file: &str, standard: &str) {
    let compiler = std::env::var(variable).unwrap_or_else(|_| default.to_string());
    let folder = env!("CARGO_TARGET_TMPDIR");
    let (source, program) = (format!("{folder}/{file}"), format!("{folder}/{file}.run"));
    std::fs::write(&source, PROGRAM).expect("a file");
    let flags = ["-Wall", "-Wextra", "-Wpedantic", "-Werror", "-I"];
    let compiled = Command::new(&compiler)
        .arg(standard)
        .args(flags)
        .arg(concat!(env!("CARGO_MANIFEST_DIR"), "/include"))
        .args(["-o", &program, &source, env!("LIBRARY")])
        .status()
        .unwrap_or_else(|error| panic!("no compiler {compiler}: {error}"));
    assert!(compiled.success());
    let output = Command::new(&program).output().expect("the program");
    assert_eq!(String::from_utf8_lossy(&output.stdout), expected());
}

#[test]
fn the_header_is_c() {
    compiled_and_run("CC", "cc", "header.c", "-std=c99");
}

#[test]
fn the_header_is_c_plus_plus() {
    compiled_and_run("CXX", "c++", "header.cpp", "-std=c++11");
}
