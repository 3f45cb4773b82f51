//! `visor draw`, as a person uses it: sheets of every kind of plan, looked at by their pixels.

#[allow(dead_code)]
#[path = "../visor/deflate.rs"]
mod deflate;
#[allow(dead_code)]
#[path = "../visor/inflate.rs"]
mod inflate;
#[allow(dead_code)]
#[path = "../visor/paint.rs"]
mod paint;
#[allow(dead_code)]
#[path = "../visor/png.rs"]
mod png;

use paint::{Bitmap, Rgb};
use std::path::{Path, PathBuf};
use std::process::{Command, Output};
use std::time::{Duration, Instant};

/// The most bytes that a sheet may have, and the longest that it may take here: a release takes under
/// a second (docs/BENCHMARK.md), and tests are not compiled as one and run beside others.
const LARGEST: u64 = 400_000;
const LONGEST: Duration = Duration::from_secs(4);

/// A sheet's parts, where visor/sheet/pen.rs has them: the screen's corner, a pixel of 320 by 240 on
/// the paper, and the middle of the drift's band.
const SCREEN: (f64, f64) = (64.0, 92.0);
const UNIT: f64 = 1.5;
const DRIFT: (f64, f64) = (644.0, 300.0);

fn folder(name: &str) -> PathBuf {
    let folder = Path::new(env!("CARGO_TARGET_TMPDIR")).join(format!("sheets-{name}"));
    let _ = std::fs::remove_dir_all(&folder);
    std::fs::create_dir_all(&folder).expect("a folder for the test");
    folder
}

fn case(name: &str) -> String {
    format!("{}/tests/cases/{name}.bin", env!("CARGO_MANIFEST_DIR"))
}

fn visor(arguments: &[&str], folder: &Path) -> Output {
    let mut command = Command::new(env!("CARGO_BIN_EXE_visor"));
    command.args(arguments).current_dir(folder);
    command.output().expect("visor runs")
}

fn said(output: &Output) -> String {
    String::from_utf8(output.stdout.clone()).expect("text")
}

/// Fields of two bytes by their offsets, in a record.
fn record(copy: bool, fields: &[(usize, i64)], fmt: u8, siz: u8, scissor: [u16; 4]) -> Vec<u8> {
    let mut bytes = vec![0; 61];
    for &(at, number) in fields {
        bytes[at..at + 2].copy_from_slice(&(number as u16).to_be_bytes());
    }
    bytes[20..24].copy_from_slice(&[0xff, 0xf4, fmt, siz]);
    for (n, edge) in scissor.iter().enumerate() {
        bytes[40 + 2 * n..42 + 2 * n].copy_from_slice(&edge.to_be_bytes());
    }
    bytes[52] = if copy { 10 } else { 9 };
    bytes[59] = 16;
    bytes
}

/// The sheet of a record in one of its forms, with its size and time held to the limits.
fn sheet(record: &str, form: &str, folder: &Path) -> Vec<u8> {
    let name = format!("sheet.{form}");
    let start = Instant::now();
    let output = visor(&["draw", record, "-o", &name], folder);
    let spent = start.elapsed();
    assert!(matches!(output.status.code(), Some(0 | 1)), "{output:?}");
    let bytes = std::fs::read(folder.join(name)).expect("a sheet");
    assert!(
        (bytes.len() as u64) < LARGEST,
        "{record}: {} bytes",
        bytes.len()
    );
    assert!(spent < LONGEST, "{record}: {spent:?}");
    bytes
}

fn pixels(png: &[u8]) -> Bitmap {
    png::decode(png).expect("a PNG of visor's")
}

/// The pixel of a sheet at a place on the paper.
fn at(sheet: &Bitmap, (x, y): (f64, f64)) -> Rgb {
    sheet
        .get(x as usize, y as usize)
        .expect("a pixel of the sheet")
}

fn line(number: f64) -> f64 {
    SCREEN.1 + number * UNIT
}

fn close(a: Rgb, b: Rgb) -> bool {
    let near = |a: u8, b: u8| a.abs_diff(b) <= 12;
    near(a.0, b.0) && near(a.1, b.1) && near(a.2, b.2)
}

/// What a person sees in case E: line 239 and column 319 in red, the band of the limits in green, the
/// drift in blue in its middle, and the picture's hues from red to violet.
fn looks_like_case_e(sheet: &Bitmap) {
    assert_eq!((sheet.width, sheet.height), (1560, 670));
    let (red, band, blue) = (Rgb(255, 23, 68), Rgb(231, 245, 234), Rgb(31, 79, 163));
    assert!(
        close(at(sheet, (300.0, line(240.0) - 0.5)), red),
        "line 239"
    );
    assert!(
        close(at(sheet, (SCREEN.0 + 480.0 - 0.5, line(100.0))), red),
        "column 319"
    );
    for y in [10.0, 120.0, 230.0] {
        assert!(
            close(at(sheet, (DRIFT.0 + 80.0, line(y))), band),
            "behind 0, line {y}"
        );
        assert!(
            close(at(sheet, (DRIFT.0 + 250.0, line(y))), band),
            "ahead of 0, line {y}"
        );
    }
    let drift =
        (0..DRIFT.1 as usize).any(|x| close(at(sheet, (DRIFT.0 + x as f64, line(123.4))), blue));
    assert!(drift, "the drift's line");
    let Rgb(r, g, b) = at(sheet, (SCREEN.0 + 4.0, line(123.4)));
    assert!(r > g && r > b, "the left side is red");
    let Rgb(r, g, b) = at(sheet, (SCREEN.0 + 300.0, line(123.4)));
    assert!(b > r && g > r, "the middle is cyan");
}

#[test]
fn case_e_by_its_pixels() {
    let folder = folder("e");
    looks_like_case_e(&pixels(&sheet(&case("E"), "png", &folder)));
    let svg = sheet(&case("E"), "svg", &folder);
    let text = String::from_utf8(svg).expect("text");
    let count = |element: &str| text.matches(element).count();
    assert_eq!(
        (count("<image "), count("<svg "), count("</svg>")),
        (2, 1, 1)
    );
    assert!(count("<text ") > 80 && count("<path ") > 8, "{text:.400}");
    assert!(text.contains(">verdict 0 complete<") && text.contains(">SEAMS<"));
}

/// The same of the SVG, drawn by a renderer that is not ours, where one is at hand.
#[test]
fn case_e_by_another_renderer() {
    let folder = folder("rendered");
    sheet(&case("E"), "svg", &folder);
    let mut command = Command::new("rsvg-convert");
    let made = command
        .args(["sheet.svg", "-o", "rendered.png"])
        .current_dir(&folder)
        .status();
    match made {
        Ok(status) => assert!(status.success()),
        Err(_) => return println!("there is no rsvg-convert: not rendered"),
    }
    let bytes = std::fs::read(folder.join("rendered.png")).expect("a PNG");
    looks_like_case_e(&pixels(&bytes));
}

/// The limits of a plan that they are not proved for are drawn as such, and what lies outside is red.
#[test]
fn drift_outside_the_limits_is_red() {
    let folder = folder("height");
    let fields = [
        (2, 1280),
        (6, 1280),
        (8, 7600),
        (10, 963),
        (14, 960),
        (28, 1024),
        (30, 700),
    ];
    std::fs::write(
        folder.join("height.bin"),
        record(false, &fields, 0, 2, [0, 0, 320, 240]),
    )
    .unwrap();
    let output = visor(&["draw", "height.bin", "-o", "sheet.png"], &folder);
    let words = said(&output);
    assert!(
        words.contains("not proved here, as the image's height is no whole number of rows"),
        "{words}"
    );
    assert!(
        words.contains("18 of 28 strips lie outside these limits."),
        "{words}"
    );
    let sheet = pixels(&std::fs::read(folder.join("sheet.png")).unwrap());
    let red = Rgb(255, 23, 68);
    let across = 0..DRIFT.1 as usize;
    let found = |x: usize| close(at(&sheet, (DRIFT.0 + x as f64, line(100.5))), red);
    assert!(across.into_iter().any(found), "a strip outside is red");
}

/// The limits of an origin between two rows are proved too, the one behind further off.
#[test]
fn an_origin_between_rows_has_its_own_limit() {
    let folder = folder("between");
    let said_of = |name: &str| said(&visor(&["draw", &case(name), "-o", "sheet.svg"], &folder));
    let (whole, between) = (said_of("H"), said_of("O"));
    assert!(
        whole.contains("Drift from +0 to +896 of 1,024; the proved limits are -1030 and +1038."),
        "{whole}"
    );
    assert!(
        between.contains(
            "Drift from -512 to +384 of 1,024; the proved limits, for an origin between two rows, \
             are -2022 and +1038."
        ),
        "{between}"
    );
    let svg = std::fs::read_to_string(folder.join("sheet.svg")).expect("text");
    assert!(svg.contains(">-2022<") && svg.contains(">green: the proved limits<"));
}

/// What stands of a refused plan, and in red where and why it stopped.
#[test]
fn refused_plans_show_what_stands() {
    let folder = folder("refused");
    let output = visor(&["draw", &case("B"), "-o", "b.svg"], &folder);
    assert_eq!(output.status.code(), Some(1));
    assert!(said(&output)
        .contains("Verdict 7 after 1 entry: A copy strip does not fit texture memory."));
    let fields = [
        (2, 1280),
        (6, 1280),
        (10, 960),
        (14, 960),
        (30, 24),
        (32, 24),
        (36, 1),
    ];
    let mut bytes = record(true, &fields, 0, 2, [0, 0, 320, 240]);
    bytes[53..61].copy_from_slice(&(u64::MAX - 100_000).to_be_bytes());
    std::fs::write(folder.join("nine.bin"), bytes).unwrap();
    let output = visor(&["draw", "nine.bin", "-o", "nine.png"], &folder);
    assert_eq!(output.status.code(), Some(1));
    let words = said(&output);
    assert!(
        words.contains("It stopped in strip 27, whose first pixel would be 0, 156"),
        "{words}"
    );
    let stand = "26 rectangles stand and meet 49,920 of 76,800 pixels of the clipped frame.";
    assert!(
        words.contains(stand) && !words.contains("proved"),
        "{words}"
    );
    let sheet = pixels(&std::fs::read(folder.join("nine.png")).unwrap());
    let (red, pale) = (Rgb(179, 38, 30), Rgb(251, 227, 225));
    assert!(
        close(at(&sheet, (1200.0, 20.0)), red),
        "the verdict's badge"
    );
    assert!(
        close(at(&sheet, (300.0, line(220.0))), pale),
        "what is not drawn"
    );
    let Rgb(r, g, b) = at(&sheet, (SCREEN.0 + 4.0, line(100.0)));
    assert!(r > g && r > b, "what stands keeps its colours");
}

/// Plans of 640 by 480, of one row a strip, of many strips, of the smallest and of the longest images.
fn plans() -> Vec<(&'static str, Vec<u8>)> {
    let (full, small) = ([0, 0, 1023, 1023], [0, 0, 320, 240]);
    // Image and frame by their widths and heights.
    let sizes = |[iw, fw, ih, fh]: [i64; 4]| vec![(2, iw), (6, fw), (10, ih), (14, fh)];
    let copy = |all: [i64; 4], fmt, siz, scissor| {
        let fields = [sizes(all), vec![(30, 4), (32, 4), (36, 1)]].concat();
        record(true, &fields, fmt, siz, scissor)
    };
    let scaled = |all: [i64; 4], scale: i64, siz, scissor| {
        let fields = [sizes(all), vec![(28, 1000), (30, scale)]].concat();
        record(false, &fields, 0, siz, scissor)
    };
    vec![
        (
            "hires",
            scaled([2560, 2560, 1920, 1920], 1000, 1, [0, 0, 640, 480]),
        ),
        ("one-row", copy([8000, 1280, 960, 960], 0, 2, small)),
        ("strips", copy([1280, 4092, 1000, 4092], 0, 2, full)),
        ("1046-strips", copy([1280, 1400, 960, 2092], 0, 2, full)),
        (
            "scaled-strips",
            scaled([4000, 4092, 4092, 4092], 1000, 3, full),
        ),
        ("tiny", copy([4, 4, 4, 4], 4, 0, small)),
        ("wide", copy([65_532, 4092, 4, 400], 0, 0, full)),
        ("high", scaled([64, 64, 65_532, 960], 60_000, 2, small)),
    ]
}

/// Every form of every sheet stays within its size and time, and the screen shows the picture.
#[test]
fn plans_of_every_size_are_drawn() {
    let folder = folder("sizes");
    for (name, bytes) in plans() {
        let file = folder.join(format!("{name}.bin"));
        std::fs::write(&file, bytes).unwrap();
        let file = file.to_str().expect("text");
        sheet(file, "svg", &folder);
        sheet(file, "html", &folder);
        let sheet = pixels(&sheet(file, "png", &folder));
        assert_eq!(sheet.width, 1560, "{name}");
        let coloured = (70..540).any(|x| {
            let Rgb(r, g, b) = at(&sheet, (f64::from(x), line(4.0)));
            r.abs_diff(g) > 60 || g.abs_diff(b) > 60
        });
        assert!(coloured, "{name}: no picture on the screen");
    }
}

/// A copy that wraps and flips: the image's own edges in magenta, and every pixel once.
#[test]
fn edges_of_the_image_are_marked() {
    let folder = folder("edges");
    let fields = [
        (0, 3200),
        (2, 1280),
        (6, 1280),
        (8, 1920),
        (10, 960),
        (14, 960),
        (26, 1),
        (30, 24),
        (32, 24),
        (36, 1),
    ];
    std::fs::write(
        folder.join("edges.bin"),
        record(true, &fields, 0, 2, [8, 8, 312, 232]),
    )
    .unwrap();
    let output = visor(&["draw", "edges.bin", "-o", "sheet.png"], &folder);
    let words = said(&output);
    assert!(
        words.contains("crosses the picture at x = 100 and at y = 180"),
        "{words}"
    );
    assert!(
        words.contains(
            "76 rectangles meet every pixel of the clipped frame once and no other, as is proved \
             of every finished copy plan."
        ),
        "{words}"
    );
    let sheet = pixels(&std::fs::read(folder.join("sheet.png")).unwrap());
    let magenta = Rgb(208, 0, 111);
    assert!(
        close(at(&sheet, (SCREEN.0 + 100.0 * UNIT, line(150.2))), magenta),
        "column 0 → 319"
    );
    assert!(
        close(at(&sheet, (SCREEN.0 + 40.2 * UNIT, line(180.0))), magenta),
        "row 239 → 0"
    );
}

/// A frame that begins inside a pixel has cells that are no pixels: what is said is said of cells.
/// Of a scaled plan nothing of it is said.
#[test]
fn cells_that_are_no_pixels_are_told() {
    let folder = folder("cells");
    let fields = [(2, 1280), (6, 1280), (10, 960), (14, 960)];
    let memory = [(4, 2), (12, 1), (30, 24), (32, 24), (36, 1)];
    let inside = [&fields[..], &memory].concat();
    let scaled = [&fields[..], &[(4, 2), (28, 1024), (30, 1024)]].concat();
    let screen = [0, 0, 320, 240];
    let words = |copy: bool, fields: &[(usize, i64)]| {
        let bytes = record(copy, fields, 0, 2, screen);
        std::fs::write(folder.join("inside.bin"), bytes).unwrap();
        said(&visor(&["draw", "inside.bin", "-o", "sheet.svg"], &folder))
    };
    let copied = words(true, &inside);
    for sentence in [
        "40 rectangles meet every cell of the clipped frame once and no other, as is proved",
        "The columns and rows of every load lie inside the image, as is proved too;",
        "begins inside a pixel, at (0.5, 0.25): each cell of it is shown in the pixel in which",
    ] {
        assert!(copied.contains(sentence), "{copied}");
    }
    let scaled = words(false, &scaled);
    assert!(
        !scaled.contains("clipped frame") && !scaled.contains("every load"),
        "{scaled}"
    );
}

/// A copy that shows bytes outside the image says why: its loads lie inside.
#[test]
fn bytes_outside_the_image_have_their_reason() {
    let folder = folder("outside");
    let memory = [(30, 4), (32, 4), (36, 1)];
    let halves = [(2, 60), (6, 400), (10, 12), (14, 100)];
    let wide = [(0, 64), (2, 4160), (6, 4092), (10, 4), (14, 4), (26, 1)];
    let words = |fields: &[(usize, i64)]| {
        let bytes = record(true, &[fields, &memory].concat(), 0, 0, [0, 0, 1023, 240]);
        std::fs::write(folder.join("outside.bin"), bytes).unwrap();
        said(&visor(&["draw", "outside.bin", "-o", "sheet.svg"], &folder))
    };
    for (words, reason) in [
        (words(&halves), "Rows of an odd number of 4-bit texels"),
        (words(&wide), "A flipped load of more than 1,024 columns"),
    ] {
        let dark = words.lines().find(|line| line.contains("(dark squares)"));
        assert!(dark.is_some_and(|line| line.contains(reason)), "{words}");
        assert!(
            words.contains("lie inside the image, as is proved"),
            "{words}"
        );
    }
}

/// Red above, blue below, as texels of 16 bits, as PNG and as PPM.
fn pictures(folder: &Path) {
    let texel = |n: usize| if n < 120 * 320 { [0xf8, 1] } else { [0, 0x3f] };
    let texels: Vec<u8> = (0..240 * 320).flat_map(texel).collect();
    std::fs::write(folder.join("texels.raw"), texels).unwrap();
    let mut bitmap = Bitmap::new(320, 240);
    for (x, y) in (0..240).flat_map(|y| (0..320).map(move |x| (x, y))) {
        let colour = if y < 120 {
            Rgb(255, 0, 0)
        } else {
            Rgb(0, 0, 255)
        };
        bitmap.set(x, y, colour);
    }
    std::fs::write(folder.join("picture.png"), png::encode(&bitmap)).unwrap();
    let mut ppm = b"P6\n320 240\n255\n".to_vec();
    let pixels = bitmap.pixels.iter().flatten();
    ppm.extend(pixels.flat_map(|Rgb(r, g, b)| [*r, *g, *b]));
    std::fs::write(folder.join("picture.ppm"), ppm).unwrap();
}

/// The real picture takes the colours' place.
#[test]
fn pictures_take_the_colours_place() {
    let folder = folder("pictures");
    pictures(&folder);
    let draw = |picture: &str, sheet: &str| {
        let arguments = ["draw", &case("A"), "--picture", picture, "-o", sheet];
        visor(&arguments, &folder)
    };
    for picture in ["texels.raw", "picture.png", "picture.ppm"] {
        let output = draw(picture, "sheet.png");
        assert_eq!(output.status.code(), Some(0), "{picture}: {output:?}");
        let sheet = pixels(&std::fs::read(folder.join("sheet.png")).unwrap());
        let (upper, lower) = (
            at(&sheet, (300.0, line(63.5))),
            at(&sheet, (300.0, line(183.5))),
        );
        assert!(close(upper, Rgb(255, 0, 0)), "{picture}");
        assert!(close(lower, Rgb(0, 0, 255)), "{picture}");
    }
    std::fs::write(folder.join("short.raw"), [0; 100]).unwrap();
    let output = draw("short.raw", "other.png");
    assert_eq!(output.status.code(), Some(2));
    let why = String::from_utf8_lossy(&output.stderr).into_owned();
    let wanted = "short.raw: 320 by 240 texels of 16 bits need 153600 bytes, and there are 100";
    assert!(why.contains(wanted), "{why}");
    assert!(!folder.join("other.png").exists(), "nothing is written");
}

/// Noise does not compress: the sheet becomes coarser, and stays within its size.
#[test]
fn a_picture_of_noise_stays_small() {
    let folder = folder("noise");
    let mut state = 1u64;
    let mut noise = || {
        state = state
            .wrapping_mul(6_364_136_223_846_793_005)
            .wrapping_add(1_442_695_040_888_963_407);
        (state >> 56) as u8
    };
    let texels: Vec<u8> = (0..640 * 480 * 2).map(|_| noise()).collect();
    std::fs::write(folder.join("noise.raw"), texels).unwrap();
    let fields = [
        (2, 2560),
        (6, 2560),
        (10, 1920),
        (14, 1920),
        (30, 12),
        (32, 12),
        (36, 1),
    ];
    std::fs::write(
        folder.join("noise.bin"),
        record(true, &fields, 0, 2, [0, 0, 640, 480]),
    )
    .unwrap();
    for form in ["svg", "png", "html"] {
        let name = format!("sheet.{form}");
        let output = visor(
            &["draw", "noise.bin", "--picture", "noise.raw", "-o", &name],
            &folder,
        );
        assert_eq!(output.status.code(), Some(0), "{output:?}");
        let size = std::fs::metadata(folder.join(&name)).unwrap().len();
        assert!(size < LARGEST, "{name}: {size} bytes");
    }
}

/// Wrong use and files that cannot be written are told apart.
#[test]
fn what_cannot_be_drawn_is_said() {
    let folder = folder("wrong");
    let run = |arguments: &[&str]| {
        let output = visor(arguments, &folder);
        (
            output.status.code(),
            String::from_utf8_lossy(&output.stderr).into_owned(),
        )
    };
    let (status, why) = run(&["draw", &case("E")]);
    assert!(
        status == Some(2) && why.contains("-o SHEET is wanted"),
        "{why}"
    );
    let (status, why) = run(&["draw", &case("E"), "-o", "sheet.gif"]);
    assert!(
        status == Some(2) && why.contains("sheet.gif ends in none of .svg, .png and .html"),
        "{why}"
    );
    let (status, why) = run(&["draw", &case("E"), "-o", "no/such/folder/sheet.svg"]);
    assert!(
        status == Some(3) && why.contains("No such file or directory"),
        "{why}"
    );
    let (status, why) = run(&["draw", "no.bin", "-o", "sheet.svg"]);
    assert!(status == Some(3) && why.contains("no.bin"), "{why}");
    assert!(!folder.join("sheet.svg").exists());
}

/// A sheet that cannot be written leaves the one that was there: where a folder has its name, and
/// where the system ends the writing in the middle.
#[test]
fn a_sheet_is_whole_or_not_there() {
    let folder = folder("whole");
    let draw = |out: &str| {
        visor(&["draw", &case("H"), "-o", out], &folder)
            .status
            .code()
    };
    assert_eq!(draw("sheet.svg"), Some(0));
    let first = std::fs::read(folder.join("sheet.svg")).unwrap();
    assert_eq!(draw("sheet.svg"), Some(0));
    assert_eq!(std::fs::read(folder.join("sheet.svg")).unwrap(), first);
    std::fs::create_dir(folder.join("folder.svg")).unwrap();
    assert_eq!(draw("folder.svg"), Some(3));
    // No file may be as large as this sheet there: the program is ended while it writes.
    let line = format!(
        "ulimit -f 4; exec {} draw {} -o sheet.svg",
        env!("CARGO_BIN_EXE_visor"),
        case("B")
    );
    let output = Command::new("sh")
        .args(["-c", &line])
        .current_dir(&folder)
        .output();
    assert!(!output.expect("a shell").status.success());
    assert_eq!(std::fs::read(folder.join("sheet.svg")).unwrap(), first);
    let left: Vec<_> = std::fs::read_dir(&folder).unwrap().collect();
    assert!(left.len() <= 3, "{left:?}");
}

/// README's picture is what its command makes now.
#[test]
fn the_picture_of_the_readme_is_true() {
    let picture = Path::new(env!("CARGO_MANIFEST_DIR")).join("../docs/pictures/case-h.png");
    if !picture.exists() {
        return println!("not in the repository: README's picture is not here");
    }
    let folder = folder("readme");
    let made = visor(&["draw", &case("H"), "-o", "case-h.png"], &folder);
    assert!(made.status.success(), "{made:?}");
    let made = std::fs::read(folder.join("case-h.png")).unwrap();
    let kept = std::fs::read(picture).unwrap();
    assert!(
        made == kept,
        "docs/pictures/case-h.png is not what `visor draw` makes now"
    );
}
