//! The page: it needs nothing else, it has a row for each record, and what changes is marked.

mod support;

use script::page::page;
use script::text::{encode, Missing};
use support::{stored, WORKED, WORKED_LISTING};

/// The page without the places where a line may be broken.
fn html(title: &str, script: &[u8], listing: &str) -> String {
    let mut out = Vec::new();
    page(title, script, listing, &mut out).expect("a vector takes it");
    String::from_utf8(out).expect("text").replace("<wbr>", "")
}

/// The cells of a row of the worked example.
fn row(number: usize) -> String {
    let page = html("worked", WORKED, WORKED_LISTING);
    let row = page.split("<tr class=").nth(number + 1).expect("a row");
    row.split("</tr>").next().unwrap_or("").to_string()
}

#[test]
fn nothing_comes_from_elsewhere() {
    let page = html("worked", WORKED, WORKED_LISTING);
    for elsewhere in ["http", "src=", "href", "url(", "@import", "@font-face", "<script", "<link"] {
        assert!(!page.contains(elsewhere), "{elsewhere}");
    }
    assert!(page.starts_with("<!doctype html>") && page.contains("prefers-color-scheme: dark"));
}

#[test]
fn every_stored_script_has_a_row_for_each_record() {
    for entry in stored() {
        let page = html(&entry.name, &entry.script, &entry.listing);
        let numbers = page.split("scope=\"row\">").skip(1).map(|row| row.split('<').next().unwrap_or(""));
        let mut next = 0;
        for number in numbers {
            let (first, last) = number.split_once(" to ").unwrap_or((number, number));
            let [first, last] = [first, last].map(|number| number.parse::<usize>().expect("a number"));
            assert!(first == next && last >= first, "{}: {number}", entry.name);
            next = last + 1;
        }
        let lines = entry.listing.lines().skip(1).filter(|line| !line.starts_with("stop ")).count();
        assert_eq!(next, lines, "{}", entry.name);
        for tag in
            ["html", "body", "table", "tbody", "tr", "th", "td", "p", "div", "span", "code", "dl", "details"]
        {
            let opened =
                page.matches(&format!("<{tag}>")).count() + page.matches(&format!("<{tag} ")).count();
            assert_eq!(opened, page.matches(&format!("</{tag}>")).count(), "{}: {tag}", entry.name);
        }
    }
}

#[test]
fn changes_are_marked() {
    let write = row(3);
    assert!(
        write.contains("<span class=\"bit\">WRITABLE</span><span class=\"bit new\">READABLE</span>"),
        "{write}"
    );
    assert!(write.contains("<span class=\"added\" style=\"width:37.50%\">"), "{write}");
    assert!(write.contains("packet comes</span> key 5, trigger READABLE, observed"), "{write}");
    let take = row(4);
    assert!(take.contains("packet goes</span> key 5,") && take.contains("<span class=\"queued\""), "{take}");
    let read = row(5);
    let bar = "<span class=\"removed\" style=\"width:25.00%\"></span><span class=\"queued\" style=\"width:12.50%\">";
    assert!(read.contains(bar), "{read}");
    let close = row(6);
    assert!(close.contains("<span class=\"bit gone\">WRITABLE</span>"), "{close}");
    assert!(close.contains("<span class=\"bit new\">closed</span>"), "{close}");
    assert!(row(7).starts_with("\"refused\""), "{}", row(7));
}

#[test]
fn datagrams_are_drawn_one_by_one() {
    let write = |count| format!("write end1 options=0 address=65536 count={count} count_at=0\n");
    let create = "create kind=datagram capacity=8 rights1=7 rights2=7\n".to_string();
    let text = [create, write(4), write(2), write(1)].concat();
    let script = encode(&text, Missing::Mistake).expect("a script");
    let listing = "record word end1 end2\n0 0 00000002 00000002\n1 4 00000002 00000003\n\
        2 2 00000002 00000003\n3 1 00000002 00000003\n";
    let part = |class, width| format!("<span class=\"{class}\" style=\"width:{width}%\"></span>");
    let bar = part("queued", "50.00") + &part("queued", "25.00") + &part("added", "12.50");
    assert!(html("three", &script, listing).contains(&bar));
}

#[test]
fn what_does_not_fit_is_marked() {
    let page = html("worked", WORKED, &WORKED_LISTING.replace("7 -24", "7 -22"));
    assert!(page.contains("<tr class=\"refused wrong\">"));
    assert!(page.contains("Does not fit (line 9): the word is -22, expected PEER_CLOSED (-24): "));
    let page = html("worked", WORKED, "record word end1 end2\n");
    assert!(page.contains("Does not fit: the listing has ended before the line of record 0 (`create`)"));
}

#[test]
fn what_is_cancelled_goes() {
    let text = "create kind=0 capacity=8 rights1=0 rights2=0\nwait 1 key=7 mask=WRITABLE edge=0\n\
        wait 1 key=7 mask=READABLE edge=0\nwait 2 key=7 mask=READABLE edge=0\ncancel 1 key=7";
    let script = encode(text, Missing::Mistake).expect("a script");
    let lines: String = (0..4).map(|record| format!("{record} 0 00000002 00000002\n")).collect();
    let listing = format!("record word end1 end2\n{lines}4 2 00000002 00000002\n");
    let page = html("cancel", &script, &listing);
    let row = page.split("<tr class=").nth(5).expect("a row");
    for part in [
        "cancel the waits and packets of end1 with key 7",
        "done: 2 of its waits and packets removed",
        "packet goes</span> key 7, trigger WRITABLE, observed WRITABLE",
        "wait goes</span> key 7 at end1 for READABLE",
        "Waits: 1 (key 7 at end2 for READABLE)",
    ] {
        assert!(row.contains(part), "{part}: {row}");
    }
    assert!(!row.contains("Packets to take"), "{row}");
}

/// Inside a title, and only there, a place to break a line would be shown as it is.
#[test]
fn lines_may_be_broken_inside_names_but_not_in_the_title() {
    let mut out = Vec::new();
    page("a_name", WORKED, WORKED_LISTING, &mut out).expect("a vector takes it");
    let page = String::from_utf8(out).expect("text");
    assert!(page.contains("<title>a_name and its listing</title>") && page.contains("PEER_<wbr>CLOSED"));
}

#[test]
fn text_cannot_become_tags() {
    let page = html("<b>_|&\"", WORKED, &WORKED_LISTING.replace("7 -24", "<i> -24"));
    assert!(page.contains("<title>&lt;b&gt;_|&amp;&quot; and its listing") && !page.contains("<b>"));
    assert!(page.contains("found `&lt;i&gt;`") && !page.contains("<i>"));
}
