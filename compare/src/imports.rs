//! Import scripts for a cemetery map as a person would write them: seeded, and closed at their end.
use crate::scripts::{self, Numbers};

const FAMILIES: [&str; 16] = [
    "Smith", "Miller", "Taylor", "O'Brien", "Nowak", "Dubois", "Svensson", "Fletcher", "Harris", "Whitlock", "Abbott", "Carver", "Müller",
    "García", "Øster", "Lefèvre",
];
const FIRST: [&str; 14] =
    ["Anna", "Thomas", "Mary", "Edward", "Ruth", "Agnes", "William", "Clara", "George", "Ada", "Józef", "Zoë", "André", "Björn"];
const SECTIONS: [&str; 6] = ["chapel", "north", "orchard", "river", "oldWall", "yew"];
const REMARKS: [&str; 8] = [
    "checked against the register",
    "the stone is broken, read from the plan of 1931",
    "moved from the old churchyard",
    "ask the parish about the second name",
    "lease paid until the end of the year",
    "no stone; the place is known from the sexton's book",
    "spelled Mueller in the register",
    "shares the plot with the row behind",
];

fn name(n: &mut Numbers) -> String {
    format!("{} {}", n.pick(&FIRST), n.pick(&FAMILIES))
}

fn plot(n: &mut Numbers) -> String {
    format!("{}-{:02}-{:03}", n.pick(&["A", "B", "C", "D", "N"]), 1 + n.below(40), 1 + n.below(180))
}

fn date(n: &mut Numbers) -> String {
    format!("{}-{:02}-{:02}", 1880 + n.below(140), 1 + n.below(12), 1 + n.below(28))
}

fn header(n: &mut Numbers) -> String {
    let year = 1950 + n.below(70);
    format!(
        "// Burials of {year}, section {}\npackage cemetery.imports\n\nimport map.plots.Plot\nimport map.people.*\n\nval year = {year}\n\n",
        n.pick(&SECTIONS)
    )
}

/// One burial, a field on each line.
fn burial(n: &mut Numbers) -> String {
    let mut text = format!("val burial{} = Burial(\n    plot = \"{}\",\n", 100 + n.below(9900), plot(n));
    text += &format!("    name = \"{}\",\n    buried = \"{}\",\n", name(n), date(n));
    if n.below(2) == 0 {
        text += &format!("    depth = {}.{}f, // metres\n", 1 + n.below(2), n.below(10) * 10);
    }
    if n.below(3) == 0 {
        text += &format!("    stone = \"{}\\n{}\",\n", name(n), n.pick(&["Rest in peace", "Beloved mother", "1914\\u20131918"]));
    }
    text + &format!("    register = {},\n    lease = {},\n)\n\n", 10_000 + n.below(80_000), n.pick(&["null", "Lease.paid", "years(30)"]))
}

/// One burial on one line.
fn line(n: &mut Numbers) -> String {
    let remark = if n.below(5) == 0 { format!(" // {}", n.pick(&REMARKS)) } else { String::new() };
    format!("map.file(\"{}\", person(\"{}\", {}), row = {}){remark}\n", plot(n), name(n), 1850 + n.below(150), 1 + n.below(40))
}

fn remark(n: &mut Numbers) -> String {
    format!("// Page {}: {}\n", 1 + n.below(400), n.pick(&REMARKS))
}

fn doc_lines(n: &mut Numbers) -> String {
    format!("/// Row {} of the {} section: {}.\n", 1 + n.below(40), n.pick(&SECTIONS), n.pick(&REMARKS))
}

fn doc_block(n: &mut Numbers) -> String {
    let opened = 1880 + n.below(100);
    format!(
        "/**\n * The {} section, opened in {opened}.\n *\n * Graves are counted from the path; {}.\n */\n",
        n.pick(&SECTIONS),
        n.pick(&REMARKS)
    )
}

fn section(n: &mut Numbers) -> String {
    let word = n.pick(&SECTIONS);
    format!("val {word}{} = Section(code = \"{word}\", rows = 1..{}, mask = 0x{:04X})\n\n", n.below(90), 2 + n.below(60), n.below(65_536))
}

fn function(n: &mut Numbers) -> String {
    let row = 1 + n.below(99);
    let least = n.below(120);
    doc_lines(n)
        + &format!(
            "fun fileRow{row}(row: Row, section: Section): Int {{
    var filed = 0
    for (grave in row.graves) {{
        if (grave.number >= {least} && !grave.closed) {{
            val place = \"${{section.code}}-$row-${{grave.number + {}}}\"
            map.file(place, grave.owner ?? throw Conflict(\"no owner at $place\"))
            filed += 1
        }} else {{
            log(\"skipped ${{grave.number}} in {}\")
        }}
    }}
    return filed
}}\n\n",
            n.below(20),
            n.pick(&SECTIONS)
        )
}

fn choice(n: &mut Numbers) -> String {
    format!(
        "when (lease{}.kind) {{\n    Kind.family -> renew(\"{}\", {})\n    Kind.single -> close(\"{}\")\n    else -> {{ /* {} */ }}\n}}\n\n",
        n.below(900),
        plot(n),
        5 + n.below(30),
        plot(n),
        n.pick(&REMARKS)
    )
}

fn inscription(n: &mut Numbers) -> String {
    format!("val inscription{} = \"\"\"\n    Here lies {}\n    born {}\n    died {}\n\"\"\"\n\n", n.below(900), name(n), date(n), date(n))
}

fn moved(n: &mut Numbers) -> String {
    let numbers: Vec<String> = (0..4 + n.below(8)).map(|_| (100 + n.below(900)).to_string()).collect();
    format!("val moved = listOf({})\n", numbers.join(", "))
}

fn part(n: &mut Numbers) -> String {
    match n.below(24) {
        0..=6 => burial(n),
        7..=13 => line(n),
        14 | 15 => remark(n),
        16 => doc_lines(n),
        17 => doc_block(n),
        18 => section(n),
        19 | 20 => function(n),
        21 => choice(n),
        22 => inscription(n),
        _ => moved(n),
    }
}

/// A script of at most so many bytes: whole parts, so that it ends at a line's end with nothing left open.
pub fn script(seed: u64, size: usize) -> String {
    let mut numbers = Numbers::new(seed);
    let start = header(&mut numbers);
    scripts::filled(start, size, |_| part(&mut numbers))
}
