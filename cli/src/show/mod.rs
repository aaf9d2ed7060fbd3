//! `nevraspu show`: a run as a page or as a picture for documents. Both are drawn from the trace's
//! text: what they show is what the proved machine did.

mod draw;
mod layout;
mod legend;
mod run;
mod shapes;

use layout::{Layout, GUTTER, HEADS, ROW};
use run::Run;
use shapes::{escape, text_width, Short};

const PAGE: &str = include_str!("page.html");
const PAGE_STYLE: &str = include_str!("page.css");
const PICTURE_STYLE: &str = include_str!("picture.css");
const SCRIPT: &str = include_str!("page.js");

/// What is to be shown.
pub struct Shown<'a> {
    pub trace: &'a str,
    pub title: &'a str,
    /// whether the list is for the practice stand, which its trace does not say
    pub stand: bool,
}

/// A page that shows a run, in one file.
pub fn html(shown: &Shown) -> String {
    let run = run::read(shown.trace);
    let notices = notices(&run);
    let paragraphs = notices.iter().map(|notice| format!("<p>{}</p>\n", escape(notice)));
    let mut totals = String::new();
    for (total, value) in &run.totals {
        totals += &format!("<span>{total} {value}</span> ");
    }
    let mut grounds = String::new();
    for refusal in refusals(&run) {
        let words = escape(&ground(refusal));
        grounds += &format!("<li data-refusal='{refusal}'>{words}</li>\n");
    }
    let (legend, legend_height) = legend::legend(400.0);
    let accepted = run.steps.iter().filter(|step| step.refused.is_none()).count();
    let place = if shown.stand { "practice stand, " } else { "" };
    let counts = match run.cabinets {
        0 => "not run".to_string(),
        1 => format!("{place}1 cabinet, {}", counted(run.steps.len(), accepted)),
        n => format!("{place}{n} cabinets, {}", counted(run.steps.len(), accepted)),
    };
    fill(
        PAGE,
        &[
            ("title", &escape(shown.title)),
            ("style", PAGE_STYLE),
            ("picture-style", PICTURE_STYLE),
            ("notices", &paragraphs.collect::<String>()),
            ("no-notices", if notices.is_empty() { " hidden" } else { "" }),
            ("counts", &counts),
            ("row", &Short(ROW).to_string()),
            ("heads", &Short(HEADS).to_string()),
            ("picture", &picture(&run)),
            ("no-run", if run.cabinets == 0 { " hidden" } else { "" }),
            ("events", &run.steps.len().to_string()),
            ("grounds", &grounds),
            ("totals", &totals),
            ("legend", &legend),
            ("legend-height", &Short(legend_height).to_string()),
            ("trace", &in_script(shown.trace)),
            ("script", SCRIPT),
        ],
    )
}

/// The picture of a run, for documents: white, with its title, what is to be said of the list, and
/// what the marks mean.
pub fn svg(shown: &Shown) -> String {
    let run = run::read(shown.trace);
    let place = if shown.stand { ", practice stand" } else { "" };
    let title = &format!("{}{place}", shown.title);
    let layout = Layout::new(&run);
    let notices = notices(&run);
    let mut width = if run.cabinets > 0 { GUTTER + layout.width() } else { 0.0 };
    for text in notices.iter().map(String::as_str).chain([title.as_str()]) {
        width = width.max(text_width(text, 13.0) + 40.0);
    }
    let width = width.max(480.0);
    let mut out = shapes::text("title", 12.0, 22.0, title);
    let mut height = 30.0;
    for notice in &notices {
        height += 20.0;
        out += &shapes::text("notice", 12.0, height - 8.0, notice);
    }
    if run.cabinets > 0 {
        let (legend, legend_height) = legend::legend(width);
        let heads = height + legend_height + 4.0;
        let body = heads + HEADS;
        let end = body + layout.height();
        for (class, x, y, part) in [
            ("legend", 0.0, height, legend),
            ("corner", 0.0, heads, draw::corner()),
            ("heads", GUTTER, heads, draw::heads(&layout)),
            ("gutter", 0.0, body, draw::gutter(&layout)),
            ("body", GUTTER, body, draw::body(&layout)),
            ("heads", GUTTER, end, draw::heads(&layout)),
        ] {
            let place = format!("translate({} {})", Short(x), Short(y));
            out += &format!("<g class='{class}' transform='{place}'>\n{part}</g>\n");
        }
        height = end + HEADS;
    }
    let (width, height, title) = (Short(width), Short(height), escape(title));
    let size = format!("width='{width}' height='{height}'");
    format!(
        "<svg xmlns='http://www.w3.org/2000/svg' version='1.1' class='run' {size} \
         viewBox='0 0 {width} {height}'>\n<title>{title}</title>\n\
         <style type='text/css'>\n{PICTURE_STYLE}</style>\n\
         <rect class='paper' {size}/>\n{out}</svg>\n"
    )
}

/// The picture's parts as the page has them: what is above and what is on the left stays in sight.
fn picture(run: &Run) -> String {
    if run.cabinets == 0 {
        return String::new();
    }
    let layout = Layout::new(run);
    let (width, height) = (layout.width(), layout.height());
    let mut out = String::new();
    for (class, width, height, part) in [
        ("corner", GUTTER, HEADS, draw::corner()),
        ("heads", width, HEADS, draw::heads(&layout)),
        ("gutter", GUTTER, height, draw::gutter(&layout)),
        ("body", width, height, draw::body(&layout)),
    ] {
        let size = format!("width='{}' height='{}'", Short(width), Short(height));
        let svg = format!("<svg class='run' aria-hidden='true' {size}>\n{part}</svg>");
        out += &format!("<div class='{class}'>{svg}</div>\n");
    }
    out
}

/// What is to be said of the list, above the picture.
fn notices(run: &Run) -> Vec<String> {
    let mut notices = Vec::new();
    if let Some((offset, refusal)) = run.stopped {
        let stops = format!("stops at byte {offset}: refusal {refusal}, {}.", ground(refusal));
        notices.push(match (run.cabinets, run.steps.len()) {
            (0, _) => format!("Nothing of this list was run: it {stops}"),
            (_, 0) => format!("The list {stops} There is no event before that."),
            (_, events) => {
                format!("The list {stops} Shown is the run up to there, {}.", events_of(events))
            }
        });
    } else if run.cabinets > 0 && run.steps.is_empty() {
        notices.push("This list has no events. Shown is the starting table.".to_string());
    }
    if !run.steps.is_empty() && run.steps.iter().all(|step| step.refused.is_some()) {
        notices
            .push("No event of this list was accepted. The table is the starting one.".to_string());
    }
    notices.extend(run.faults.iter().map(|fault| format!("Fault in the trace: {fault}.")));
    notices
}

/// `12 events, 11 accepted, 1 refused`
fn counted(events: usize, accepted: usize) -> String {
    format!("{}, {accepted} accepted, {} refused", events_of(events), events - accepted)
}

fn events_of(events: usize) -> String {
    match events {
        1 => "1 event".to_string(),
        more => format!("{more} events"),
    }
}

/// The refusals' numbers that are met, each once.
fn refusals(run: &Run) -> Vec<u64> {
    let mut met: Vec<u64> = run.steps.iter().filter_map(|step| step.refused).collect();
    met.sort_unstable();
    met.dedup();
    met
}

/// A refusal's ground in words.
fn ground(refusal: u64) -> String {
    let known = u8::try_from(refusal).ok().and_then(nevraspu::Refusal::from_number);
    known.map_or("no refusal has this number".to_string(), |known| known.ground().to_string())
}

/// The trace for a script element, which ends at the first `</script`: `&` and `<` are written in
/// another way, and the page's script reads them back. A trace has neither, and stands as it is.
fn in_script(trace: &str) -> String {
    trace.replace('&', "&amp;").replace('<', "&lt;")
}

/// A template with each `{{name}}` replaced by its part. What is put in is not looked at again.
fn fill(template: &str, parts: &[(&str, &str)]) -> String {
    let mut out = String::new();
    let mut rest = template;
    while let Some((before, behind)) = rest.split_once("{{") {
        out.push_str(before);
        let (name, after) = behind.split_once("}}").unwrap_or((behind, ""));
        let part = parts.iter().find(|(known, _)| *known == name);
        out.push_str(part.map_or("", |(_, part)| part));
        rest = after;
    }
    out + rest
}

#[cfg(test)]
mod tests {
    use super::*;

    fn shown<'a>(trace: &'a str, title: &'a str) -> Shown<'a> {
        Shown { trace, title, stand: false }
    }

    const K10: &str = include_str!("../../../examples/k10-trace.txt");

    /// Whether every element is closed in its order, and no `<` or `&` stands alone.
    fn well_formed(xml: &str) -> Result<(), String> {
        let mut open: Vec<&str> = Vec::new();
        let mut rest = xml;
        while let Some((before, behind)) = rest.split_once('<') {
            let bare = before.split('&').skip(1).find(|part| !part.contains(';'));
            if let Some(bare) = bare {
                return Err(format!("& in {bare}"));
            }
            let (tag, after) = behind.split_once('>').ok_or("no end of a tag")?;
            match tag.strip_prefix('/') {
                Some(name) if open.pop() != Some(name) => return Err(format!("</{name}>")),
                Some(_) => {}
                None if tag.ends_with('/') => {}
                None => open.push(tag.split([' ', '\n']).next().unwrap_or("")),
            }
            rest = after;
        }
        match open.pop() {
            Some(left) => Err(format!("<{left}> is not closed")),
            None => Ok(()),
        }
    }

    #[test]
    fn the_page_has_the_trace_as_it_is_and_every_part() {
        let page = html(&shown(K10, "k10.list"));
        assert!(page.contains(K10));
        assert!(!page.contains("{{"));
        assert!(page.contains("<title>k10.list</title>"), "{}", &page[..400]);
        assert!(page.contains("2 cabinets, 12 events, 12 accepted, 0 refused"));
        assert!(page.contains("<span>delivered 8</span>"));
    }

    #[test]
    fn every_part_of_the_template_is_known() {
        let mut names: Vec<&str> =
            PAGE.split("{{").skip(1).filter_map(|part| part.split("}}").next()).collect();
        names.sort_unstable();
        names.dedup();
        assert_eq!(
            names,
            [
                "counts",
                "events",
                "grounds",
                "heads",
                "legend",
                "legend-height",
                "no-notices",
                "no-run",
                "notices",
                "picture",
                "picture-style",
                "row",
                "script",
                "style",
                "title",
                "totals",
                "trace"
            ]
        );
    }

    #[test]
    fn a_title_is_escaped() {
        let title = "</title><script>alert(\"1\")</script>&'\u{1}";
        for text in [html(&shown(K10, title)), svg(&shown(K10, title))] {
            assert!(text.contains(
                "&lt;/title&gt;&lt;script&gt;alert(&quot;1&quot;)&lt;/script&gt;&amp;&#39;\u{fffd}"
            ));
            assert!(!text.contains("alert(\"1\")"));
        }
        assert_eq!(well_formed(&svg(&shown(K10, title))), Ok(()));
    }

    #[test]
    fn a_trace_cannot_end_its_script() {
        let page = html(&shown("cabinets 1\n</script><!--<script>&lt;\n", "x"));
        assert!(page.contains("&lt;/script>&lt;!--&lt;script>&amp;lt;"));
        assert_eq!(page.matches("</script").count(), PAGE.matches("</script").count());
    }

    #[test]
    fn a_list_that_stops_is_told() {
        let told = |trace: &str| html(&shown(trace, "x")) + &svg(&shown(trace, "x"));
        let empty = told("stopped 0 3\n");
        let words =
            "Nothing of this list was run: it stops at byte 0: refusal 3, only 1 or 2 bytes";
        assert_eq!(empty.matches(words).count(), 2);
        assert!(!empty.contains("class='life' data-cabinet"));
        let table = "1 0 0 0 0 0 0\nmessages 0\nsent 0\ndelivered 0\nlost 0\n";
        let damaged = told(&format!("cabinets 1\n1 crash 1 refused 9\nstopped 8 5\n{table}"));
        assert!(damaged.contains(
            "The list stops at byte 8: refusal 5, length wrong for the tag. \
             Shown is the run up to there, 1 event."
        ));
        assert!(damaged.contains("No event of this list was accepted."));
        assert!(told(&format!("cabinets 1\nstopped 4 4\n{table}"))
            .contains("There is no event before that."));
        assert!(told(&format!("cabinets 1\n{table}")).contains("This list has no events."));
        assert!(!told(K10).contains("class='notice'"));
    }

    #[test]
    fn refusals_have_their_grounds() {
        let trace = "cabinets 1\n1 crash 1 refused 9\n2 crash 9 refused 7\n\
                     3 crash 1 refused 9\n4 crash 1 refused 999\n";
        let page = html(&shown(trace, "x"));
        assert_eq!(page.matches("<li data-refusal=").count(), 3);
        assert!(page.contains(
            "<li data-refusal='7'>cabinet outside 1 to n, or sender equals receiver</li>"
        ));
        assert!(page.contains("<li data-refusal='999'>no refusal has this number</li>"));
        assert_eq!(page.matches("class='refused' data-row").count(), 4);
    }

    /// A lost message, one that waits, a crash, a refused event and a list that stops.
    const STORY: &str = "cabinets 3\n1 recover 3 accepted\n  3 3 3 18 3 1 0 idle\n\
        2 check 3 accepted\n  3 3 3 18 3 1 0 asking 1 found none\n  \
        sent 3 -> 1 AreYouCoordinator call 1\n\
        3 expire 3 accepted\n  3 3 3 18 3 1 0 asking 2 found none\n  \
        sent 3 -> 2 AreYouCoordinator call 2\n\
        4 lose 3 1 accepted\n  taken 3 -> 1 AreYouCoordinator call 1\n5 deliver 3 2 refused 9\n\
        6 crash 3 accepted\n  3 0 3 18 3 1 0 idle\nstopped 33 4\n\
        1 0 0 0 0 0 0\n2 0 0 0 0 0 0\n3 0 3 18 3 1 0\nmessages 1\nsent 2\ndelivered 0\nlost 1\n";

    /// Any text at all is answered, and the picture is well-formed: two traces cut at every byte,
    /// with each byte changed, and with lines left out, doubled and in other places.
    #[test]
    fn any_text_is_answered() {
        assert_eq!(run::read(STORY).faults, Vec::<String>::new());
        [K10, STORY].into_iter().for_each(any_change_is_answered);
    }

    fn any_change_is_answered(trace: &str) {
        let mut texts: Vec<String> = (0..trace.len()).map(|end| trace[..end].to_string()).collect();
        for place in 0..trace.len() {
            let other = ["", "9", "\n", "<", " ", "99999999999", "é"][place % 7];
            texts.push(format!("{}{other}{}", &trace[..place], &trace[place + 1..]));
        }
        let lines: Vec<&str> = trace.split_inclusive('\n').collect();
        for place in 0..lines.len() {
            for line in ["", lines[place].repeat(2).as_str(), lines[(place * 7 + 3) % lines.len()]]
            {
                let mut changed = lines.clone();
                changed[place] = line;
                texts.push(changed.concat());
            }
        }
        for text in &texts {
            html(&shown(text, "x"));
            assert_eq!(well_formed(&svg(&shown(text, "x"))), Ok(()), "{text}");
        }
    }

    #[test]
    fn the_stand_is_told() {
        let stand = Shown { stand: true, ..shown("cabinets 4\nmessages 0\n", "x") };
        assert!(html(&stand).contains("practice stand, 4 cabinets, "));
        assert!(svg(&stand).contains(">x, practice stand</text>"));
        assert!(!html(&shown(K10, "x")).contains("practice stand"));
    }
}
