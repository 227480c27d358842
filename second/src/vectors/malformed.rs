//! Lines of each word that are no commands, to be answered `?`: what comes
//! right behind the greatest number, and every way to write a token wrongly.

/// A good line of each word.
const GOOD: [(&str, &str); 11] = [
    ("read", "read d139"),
    (
        "write",
        "write 255 0 5 immediate_setup 3 3359a2 29f1 0a0b0c0d",
    ),
    (
        "step",
        "step 0 0 0 0 00000000 0 3 3359a2 29f1 255 2 5 0a0b0c0d 0 d139",
    ),
    ("settings", "settings 636b736e3d330a"),
    ("judge", "judge 3 3359a2 29f1 01"),
    (
        "record",
        "record eeeeeeeeeeeeeeee 0 0 3 0 00000000 0 d139 3 0 0 0 51",
    ),
    ("gread", "gread d039"),
    ("gwrite", "gwrite 255 0 5 termination_reject 98000000"),
    (
        "gstep",
        "gstep 0 0 0 0 00000000 0 0 0 3 3359a2 29f1 255 2 5 0a0b0c0d 0 d039",
    ),
    (
        "grecord",
        "grecord eeeeeeeeeeeeeeee 0 0 3 0 00000000 0 d039 3 0 0 0 51",
    ),
    ("mend", "mend 3 3359a2 29f1 8 0300030300000000"),
];

/// What a token is replaced with. Some of these are good in some places.
const INSTEAD: [&str; 15] = [
    "",
    "-",
    "00",
    "01",
    "-1",
    "+1",
    "256",
    "16",
    "32",
    "4294967296",
    "99999999999999999999",
    "AB",
    "0",
    "xy",
    "0x1",
];

/// Those of the word that a set is named after; a set of another name has none.
pub fn all(word: &str, lines: &mut Vec<String>) {
    let Some((_, good)) = GOOD.iter().find(|row| row.0 == word) else {
        return;
    };
    let tokens: Vec<&str> = good.split(' ').collect();
    for place in 1..tokens.len() {
        for instead in INSTEAD {
            let mut changed = tokens.clone();
            changed[place] = instead;
            lines.push(changed.join(" "));
        }
        lines.push(tokens[..place].join(" "));
    }
    lines.push(format!(" {good}"));
    lines.push(format!("{good} "));
    lines.push(format!("{good} 0"));
    lines.push(format!("{good}\r"));
    lines.push(good.replacen(' ', "  ", 1));
    lines.push(good.replacen(' ', "\t", 1));
    lines.push(good.to_uppercase());
    lines.push(format!("{word}s {}", &good[word.len() + 1..]));
    if word == "write" {
        kinds(lines);
    }
}

/// Fields of one kind behind the name of another, and flags beyond 1.
fn kinds(lines: &mut Vec<String>) {
    for fields in [
        "connect 01020304",
        "connect 01020304 256",
        "connect 01020304 -",
        "connect 010203 1",
        "get_status",
        "get_status - -",
        "set_parameter -",
        "set_parameter 256",
        "setup -",
        "setup 0102030405",
        "status 9e 2",
        "status 9e 256 2",
        "status 9e 2 256",
        "termination",
        "termination 9",
        "terminate 90",
        "Setup 01020304",
    ] {
        lines.push(format!("write 255 0 5 {fields}"));
    }
    for flag in ["2", "00", "-", "255"] {
        lines.push(format!("write 255 {flag} 5 setup 01020304"));
    }
}
