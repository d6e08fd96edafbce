//! The colours of labels and of shares: the same in every picture.

type Colour = [u8; 3];

/// Of the labels from 1 on; those after them are taken from a wheel.
const FIRST: [Colour; 10] = [
    [0x4e, 0x79, 0xa7],
    [0xf2, 0x8e, 0x2b],
    [0x59, 0xa1, 0x4f],
    [0xe1, 0x57, 0x59],
    [0x76, 0xb7, 0xb2],
    [0xed, 0xc9, 0x48],
    [0xb0, 0x7a, 0xa1],
    [0xff, 0x9d, 0xa7],
    [0x9c, 0x75, 0x5f],
    [0x8a, 0x8f, 0x98],
];
/// A step round the wheel, in degrees, after which neighbouring labels look least alike.
const STEP: f64 = 137.508;
/// Fills brighter than this have dark words on them.
const BRIGHT: f64 = 150.0;
/// Of a bare window, of one half covered and of a filled one; the others lie between.
const SHADES: [Colour; 3] = [[0xff, 0xff, 0xff], [0xf4, 0x9a, 0x5a], [0x8e, 0x1b, 0x2e]];

/// The style of a label's solids and of the words on them, as two rules of a style sheet.
pub fn rules(label: i32) -> String {
    let fill = fill(label);
    let line = fill.map(|part| (f64::from(part) * 0.65) as u8);
    let words = words_on(fill);
    format!(".label{label} {{ fill: {}; stroke: {} }} .on{label} {{ fill: {words} }}\n", hex(fill), hex(line))
}

/// The same of the windows that are so many percent metal.
pub fn shade_rules(percent: usize) -> String {
    let (from, part) = if percent < 50 { (0, percent) } else { (1, percent - 50) };
    let between = |place: usize| {
        let [low, high] = [SHADES[from][place], SHADES[from + 1][place]].map(f64::from);
        (low + (high - low) * part as f64 / 50.0) as u8
    };
    let fill = [0, 1, 2].map(between);
    format!(".shade{percent} {{ fill: {} }} .on_shade{percent} {{ fill: {} }}\n", hex(fill), words_on(fill))
}

fn words_on(fill: Colour) -> &'static str {
    let [red, green, blue] = fill.map(f64::from);
    if 0.299 * red + 0.587 * green + 0.114 * blue > BRIGHT {
        "#2b2f36"
    } else {
        "#ffffff"
    }
}

fn fill(label: i32) -> Colour {
    let place = label as usize - 1;
    FIRST.get(place).copied().unwrap_or_else(|| on_wheel(f64::from(label) * STEP, 120.0 + 25.0 * (place % 3) as f64))
}

fn on_wheel(degrees: f64, middle: f64) -> Colour {
    [0.0, 120.0, 240.0].map(|turn| (middle + 80.0 * (degrees - turn).to_radians().cos()) as u8)
}

fn hex([red, green, blue]: Colour) -> String {
    format!("#{red:02x}{green:02x}{blue:02x}")
}
