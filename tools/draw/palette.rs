//! The colours of the pictures.

/// The shades of points, from light to dark: the sequential scheme YlGnBu of ColorBrewer. Each is darker than the one
/// before it, so that readers with any colour vision can follow them. The other signs differ in shape as well.
pub const SHADES: [&str; 8] = ["#edf8b1", "#c7e9b4", "#7fcdbb", "#41b6c4", "#1d91c0", "#225ea8", "#253494", "#081d58"];

pub const INK: &str = "#1a1a1a";
pub const PAPER: &str = "#ffffff";
pub const WALL: &str = "#6e6a66";
pub const GRID: &str = "#e9e7e4";
pub const CLOSED: &str = "#fdf3e3";
pub const HATCHING: &str = "#a8651b";
pub const ROUTE: &str = "#d55e00";
pub const DRIVEN: &str = "#000000";
pub const WARNING: &str = "#8e1b6b";

#[cfg(test)]
mod tests {
    use super::*;

    /// The relative luminance of a colour, as the web's accessibility guidelines define it.
    fn luminance(colour: &str) -> f64 {
        let part = |at: usize| {
            let part = f64::from(u8::from_str_radix(&colour[at..at + 2], 16).expect("two digits")) / 255.0;
            if part <= 0.04045 { part / 12.92 } else { ((part + 0.055) / 1.055).powf(2.4) }
        };
        0.2126 * part(1) + 0.7152 * part(3) + 0.0722 * part(5)
    }

    fn contrast(one: &str, other: &str) -> f64 {
        let [one, other] = [one, other].map(|colour| luminance(colour) + 0.05);
        one.max(other) / one.min(other)
    }

    #[test]
    fn darker_and_darker() {
        for pair in SHADES.windows(2) {
            assert!(luminance(pair[0]) > luminance(pair[1]) && contrast(pair[0], pair[1]) >= 1.15, "{pair:?}");
        }
        assert!(contrast(INK, PAPER) >= 7.0);
    }
}
