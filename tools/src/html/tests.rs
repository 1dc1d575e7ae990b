use super::*;
use aura_lexer::lex;

fn page(script: &str) -> String {
    let mut out = Vec::new();
    write(&lex(script.as_bytes()).expect("accepted"), "a<b>.aura", &mut out).expect("a vector takes all");
    String::from_utf8(out).expect("UTF-8")
}

/// The texts of the lines, without the marks of the page.
fn texts(page: &str) -> Vec<String> {
    let lines = page.lines().filter_map(|line| line.strip_suffix("</code></div>")?.split_once("<code>"));
    let plain = |text: &str| {
        let mut parts = text.split('<');
        let first = parts.next().expect("a part").to_string();
        parts.fold(first, |all, part| all + part.split_once('>').expect("a mark ends").1)
    };
    let texts = lines.map(|(_, text)| {
        plain(text).replace("&lt;", "<").replace("&gt;", ">").replace("&quot;", "\"").replace("&#39;", "'").replace("&amp;", "&")
    });
    texts.collect()
}

#[test]
fn the_page_holds_the_script_line_by_line() {
    let script = "val a=1 // <b> & \"c\"\r\n\n\"é$x\" <<< \u{1B}\nb";
    assert_eq!(texts(&page(script)), ["val a=1 // <b> & \"c\"", "", "\"é$x\" <<< ␛", "b"]);
    assert!(page(script).contains("<div class=\"line\" id=\"L3\"><a href=\"#L3\">3</a>"));
    assert!(page("").contains("<p>0 bytes, 1 tokens, mistakes: 0; closed.</p>"));
}

#[test]
fn nothing_of_the_script_or_its_name_is_a_part_of_the_page() {
    let page = page("\"</code><script>alert(1)</script>\" // <!-- \u{202E}");
    assert!(!page.contains("<script") && !page.contains("<!--") && !page.contains('\u{202E}'));
    assert!(page.contains("<title>a&lt;b&gt;.aura</title>"));
    for word in ["http:", "https:", "src=", "url(", "@import"] {
        assert!(!page.contains(word), "the page needs another file: {word}");
    }
}

#[test]
fn words_stand_below_their_line() {
    let page = page("a\n\"\\q\"\nb /* c\n\n");
    let lines: Vec<&str> = page.lines().collect();
    let below = |id: &str| lines[lines.iter().position(|line| line.contains(id)).expect("the line") + 1];
    assert!(below("id=\"L2\"").starts_with("<div class=\"words\">line 2, column 3: error 7: "), "{page}");
    assert!(below("id=\"L3\"").contains("error 2: a block comment without its end, begun at line 3, column 3; "), "{page}");
    assert!(below("id=\"L1\"").contains("id=\"L2\""), "{page}");
    assert!(page.contains("<span class=\"mistake\">q</span>") && page.contains("mistakes: 2; open: the script ends inside"));
}

#[test]
fn no_more_than_200_mistakes_are_told() {
    let page = page(&"\u{7}\n".repeat(300));
    assert_eq!(page.matches("class=\"words\"").count(), 200);
    assert!(page.contains("The first 200 mistakes are told in words below their lines, 100 more are not."));
    assert_eq!(page.matches("<span class=\"mistake\">").count(), 300);
}
