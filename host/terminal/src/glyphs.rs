//! Code page 437: the character that a byte is shown as.

#[rustfmt::skip]
const LOW: [char; 32] = [
    ' ', '☺', '☻', '♥', '♦', '♣', '♠', '•', '◘', '○', '◙', '♂', '♀', '♪', '♫', '☼',
    '►', '◄', '↕', '‼', '¶', '§', '▬', '↨', '↑', '↓', '→', '←', '∟', '↔', '▲', '▼',
];

#[rustfmt::skip]
const HIGH: [char; 129] = [
    '⌂',
    'Ç', 'ü', 'é', 'â', 'ä', 'à', 'å', 'ç', 'ê', 'ë', 'è', 'ï', 'î', 'ì', 'Ä', 'Å',
    'É', 'æ', 'Æ', 'ô', 'ö', 'ò', 'û', 'ù', 'ÿ', 'Ö', 'Ü', '¢', '£', '¥', '₧', 'ƒ',
    'á', 'í', 'ó', 'ú', 'ñ', 'Ñ', 'ª', 'º', '¿', '⌐', '¬', '½', '¼', '¡', '«', '»',
    '░', '▒', '▓', '│', '┤', '╡', '╢', '╖', '╕', '╣', '║', '╗', '╝', '╜', '╛', '┐',
    '└', '┴', '┬', '├', '─', '┼', '╞', '╟', '╚', '╔', '╩', '╦', '╠', '═', '╬', '╧',
    '╨', '╤', '╥', '╙', '╘', '╒', '╓', '╫', '╪', '┘', '┌', '█', '▄', '▌', '▐', '▀',
    'α', 'ß', 'Γ', 'π', 'Σ', 'σ', 'µ', 'τ', 'Φ', 'Θ', 'Ω', 'δ', '∞', 'φ', 'ε', '∩',
    '≡', '±', '≥', '≤', '⌠', '⌡', '÷', '≈', '°', '∙', '·', '√', 'ⁿ', '²', '■', '\u{a0}',
];

pub fn glyph(byte: u8) -> char {
    match byte {
        0..=31 => LOW[byte as usize],
        32..=126 => char::from(byte),
        _ => HIGH[byte as usize - 127],
    }
}

/// The byte that is typed for a character. Of those below 32 a screen takes 27 alone.
pub fn byte(glyph_typed: char) -> Option<u8> {
    (32..=255).chain([27]).find(|&byte| glyph(byte) == glyph_typed)
}

pub fn string(bytes: &[u8]) -> String {
    bytes.iter().map(|&byte| glyph(byte)).collect()
}

#[cfg(test)]
mod tests {
    use super::*;

    #[test]
    fn every_byte_has_a_character_of_its_own() {
        for b in (32..=255).chain([27]) {
            assert_eq!(byte(glyph(b)), Some(b));
        }
        assert_eq!((glyph(130), glyph(205), glyph(27), glyph(225)), ('é', '═', '←', 'ß'));
        assert_eq!(byte('€'), None);
    }
}
