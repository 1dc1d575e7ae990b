use super::*;
use aura_lexer::lex;

/// A letter for the highlight of each byte; a capital where it belongs to a mistake.
fn painted(script: &str) -> String {
    let lexed = lex(script.as_bytes()).expect("accepted");
    let letter = |highlight| match highlight {
        Highlight::Plain => '.',
        Highlight::Comment => 'c',
        Highlight::Doc => 'd',
        Highlight::Keyword => 'k',
        Highlight::Name => 'n',
        Highlight::Number => 'z',
        Highlight::Text => 's',
        Highlight::Interpolation => 'i',
        Highlight::Mark => 'm',
        Highlight::Wrong => 'x',
    };
    let letters = highlights(&lexed).into_iter().map(letter);
    letters.zip(wrong(&lexed)).map(|(c, wrong)| if wrong { c.to_ascii_uppercase() } else { c }).collect()
}

#[test]
fn tokens_comments_and_spaces() {
    assert_eq!(painted("val ab=12"), "kkk.nnmzz");
    assert_eq!(painted("a // b c \n/* d */ e"), "n.ccccccccccccccc.n");
    assert_eq!(painted("/// a\n/** b */c"), "ddddd.ddddddddn");
    assert_eq!(painted("a<<b << ( <<<"), "nmmn.mm.m.xxx");
    assert_eq!(painted("true null $"), "kkkk.kkkk.n");
    assert_eq!(painted("'x' ${a}"), "sss.iiii");
}

#[test]
fn pieces_of_strings() {
    assert_eq!(painted("\"a${b}c$d\"e"), "ssiiiisiisn");
    assert_eq!(painted("\"$a\" b"), "siis.n");
    assert_eq!(painted("\"$a\\uD800\"b"), "siisssssssn");
    assert_eq!(painted("\"\\uD800$a\""), "sssssssiis");
    assert_eq!(painted("\"$a$b${c}\" /*d*/"), "siiiiissss.ccccc", "a name takes in further $");
    assert_eq!(painted("\"${c}$a b\" /*d*/"), "siiiiiisss.ccccc");
    assert_eq!(painted("\"\"\"a\n\"\"\"\"\""), "ssssssssss");
}

/// The red, green and blue of one of the 256 colours from 16 on, as terminals have them.
fn rgb(number: u8) -> [u8; 3] {
    const STEPS: [u8; 6] = [0, 95, 135, 175, 215, 255];
    match number {
        232.. => [8 + 10 * (number - 232); 3],
        _ => [36, 6, 1].map(|unit| STEPS[usize::from((number - 16) / unit % 6)]),
    }
}

/// WCAG's relative luminance.
fn luminance(rgb: [u8; 3]) -> f64 {
    let [red, green, blue] = rgb.map(|byte| {
        let part = f64::from(byte) / 255.0;
        if part <= 0.03928 {
            part / 12.92
        } else {
            ((part + 0.055) / 1.055).powf(2.4)
        }
    });
    0.2126 * red + 0.7152 * green + 0.0722 * blue
}

#[test]
fn every_colour_stands_off_from_black_and_from_white() {
    let styles = Highlight::ALL.iter().map(|highlight| highlight.style()).chain([MISTAKE]);
    let colours: Vec<_> = styles.filter_map(|style| style.colour).collect();
    assert_eq!(colours.len(), 9);
    for (number, name) in colours {
        let [red, green, blue] = rgb(number);
        assert_eq!(name, format!("#{red:02x}{green:02x}{blue:02x}"), "the page has the terminal's colour");
        let light = luminance([red, green, blue]) + 0.05;
        assert!(light / 0.05 >= 3.9 && 1.05 / light >= 3.9, "{number}: {} on black, {} on white", light / 0.05, 1.05 / light);
    }
}

#[test]
fn lines_are_cut_into_stretches_without_their_ends() {
    let lexed = lex(b"val a\r\n\n/* b\n*/\r").expect("accepted");
    let all: Vec<(String, &str)> =
        lines(&lexed).map(|line| (line.runs.iter().map(|s| s.text).collect::<Vec<_>>().join("|"), line.end)).collect();
    let expected = [("val| |a", "\r\n"), ("", "\n"), ("/* b", "\n"), ("*/|\r", "")];
    assert_eq!(all, expected.map(|(text, end)| (text.to_string(), end)));
}
