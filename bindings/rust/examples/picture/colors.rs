use netbuff::TransformType;

/// Hue in degrees: single blocks are blue, larger varblocks green, then yellow, then red; special
/// transforms of one block are violet.
fn hue(kind: TransformType) -> f64 {
    use TransformType::*;
    match kind {
        Dct8 => 210.0,
        Dct4x8 => 196.0,
        Dct8x4 => 186.0,
        Dct4 => 224.0,
        Dct2 => 238.0,
        Hornuss => 316.0,
        Afv0 => 256.0,
        Afv1 => 268.0,
        Afv2 => 280.0,
        Afv3 => 292.0,
        Dct16x8 => 168.0,
        Dct8x16 => 156.0,
        Dct16 => 138.0,
        Dct32x8 => 116.0,
        Dct8x32 => 102.0,
        Dct32x16 => 84.0,
        Dct16x32 => 70.0,
        Dct32 => 54.0,
        Dct64x32 => 46.0,
        Dct32x64 => 40.0,
        Dct64 => 32.0,
        Dct128x64 => 22.0,
        Dct64x128 => 16.0,
        Dct128 => 8.0,
        Dct256x128 => 0.0,
        Dct128x256 => 352.0,
        Dct256 => 342.0,
    }
}

/// A varblock's colour: its transform's hue, darker for a larger hf_mul (shade 0 to 1).
pub fn varblock(kind: TransformType, shade: f64) -> String {
    let lightness = 0.88 - 0.40 * shade;
    hsl(hue(kind), 0.62, lightness)
}

/// The ground on which a varblock's coefficients are drawn.
pub fn ground(kind: TransformType) -> String {
    hsl(hue(kind), 0.55, 0.955)
}

/// A grey of the same lightness as a varblock's colour.
pub fn shade(shade: f64) -> String {
    hsl(0.0, 0.0, 0.88 - 0.40 * shade)
}

/// A coefficient's colour: blue below 0, red above; darker for a larger one (strength 0 to 1).
pub fn coefficient(value: i32, strength: f64) -> String {
    let hue = if value < 0 { 217.0 } else { 4.0 };
    hsl(hue, 0.75, 0.76 - 0.40 * strength)
}

fn hsl(hue: f64, saturation: f64, lightness: f64) -> String {
    let chroma = saturation * (1.0 - (2.0 * lightness - 1.0).abs());
    let part = |shift: f64| {
        let k = (shift + hue / 30.0) % 12.0;
        let value = lightness - chroma / 2.0 * (k - 3.0).min(9.0 - k).clamp(-1.0, 1.0);
        (255.0 * value).round() as u8
    };
    format!("#{:02x}{:02x}{:02x}", part(0.0), part(8.0), part(4.0))
}

#[cfg(test)]
mod tests {
    use super::*;

    #[test]
    fn hues_become_colours() {
        assert_eq!(hsl(0.0, 1.0, 0.5), "#ff0000");
        assert_eq!(hsl(120.0, 1.0, 0.5), "#00ff00");
        assert_eq!(hsl(240.0, 1.0, 0.5), "#0000ff");
        assert_eq!(hsl(77.0, 0.0, 1.0), "#ffffff");
    }

    #[test]
    fn transforms_have_colours_of_their_own() {
        let colours = TransformType::ALL.map(|kind| varblock(kind, 0.5));
        let different: std::collections::HashSet<_> = colours.iter().collect();
        assert_eq!(different.len(), 27);
        assert_ne!(
            varblock(TransformType::Dct8, 0.0),
            varblock(TransformType::Dct8, 1.0)
        );
    }
}
