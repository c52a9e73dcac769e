//! What is kept: each tab has its own work, a closed one's can be had again, and where there is no room it is said what is not kept.

use std::path::Path;

use super::chromium::{with, Browser, Tab};

/// What the page says when its work lies there.
const BEGUN: &str = "document.getElementById('text')?.readOnly === false ? '' : undefined";

/// A tab with the page, when it has begun.
fn open(browser: &mut Browser, page: &Path) -> Option<Tab> {
    let tab = browser.open(page)?;
    browser.ask(&tab, BEGUN)?;
    Some(tab)
}

/// Loaded again, as by its key.
fn reload(browser: &mut Browser, tab: &Tab) -> Option<()> {
    browser.ask(tab, "(document.body.dataset.old = 'yes')")?;
    browser.reload(tab)?;
    browser.ask(tab, "document.body?.dataset.old ? undefined : ''")?;
    browser.ask(tab, BEGUN).map(|_| ())
}

/// Something in the place of the text, as if it were typed.
fn write(browser: &mut Browser, tab: &Tab, text: &str) -> Option<()> {
    browser.ask(tab, "(document.getElementById('text').select(), '')")?;
    browser.type_text(tab, text)
}

/// A chart with a comment by which it is known.
fn chart(comment: &str) -> String {
    format!("# {comment}\nscheme 1\nbegin -> end\nend\n")
}

fn value(browser: &mut Browser, tab: &Tab) -> Option<String> {
    browser.ask(tab, "document.getElementById('text').value")
}

/// The text of a part of the page.
fn said(browser: &mut Browser, tab: &Tab, id: &str) -> Option<String> {
    browser.ask(tab, &format!("document.getElementById('{id}').textContent"))
}

/// The works of closed tabs that are offered, by their first words.
fn offered(browser: &mut Browser, tab: &Tab) -> Option<String> {
    browser.ask(
        tab,
        "Array.from(document.querySelectorAll('#earlier optgroup[label^=works] option'), (one) => one.textContent.slice(0, 24)).join()",
    )
}

fn choose(browser: &mut Browser, tab: &Tab, what: &str) -> Option<()> {
    let script = format!(
        "((list) => {{ list.value = {what}; list.dispatchEvent(new Event('change', {{ bubbles: true }})); return ''; }})(document.getElementById('earlier'))"
    );
    browser.ask(tab, &script).map(|_| ())
}

pub fn tabs(name: &str, page: &Path) {
    with(name, |browser| each_has_its_own(browser, page));
    with(name, |browser| a_copy_goes_on_by_itself(browser, page));
    with(name, |browser| nothing_is_written_over_without_locks(browser, page));
    with(name, |browser| typed_over(browser, page));
    with(name, |browser| by_accident(browser, page));
    DAMAGED.iter().for_each(|case| with(name, |browser| damaged(browser, page, *case)));
    with(name, |browser| no_room(browser, page));
    with(name, |browser| keeps_nothing(browser, page));
}

fn each_has_its_own(browser: &mut Browser, page: &Path) -> Option<()> {
    let one = open(browser, page)?;
    write(browser, &one, &chart("first"))?;
    let other = open(browser, page)?;
    assert!(value(browser, &other)?.contains("roughing"), "a second tab begins anew");
    write(browser, &other, &chart("second"))?;
    browser.press(&other, &[("Escape", 0), ("ArrowRight", 0), ("ArrowRight", 0), ("ArrowRight", 0)])?;
    for (tab, text) in [(&one, "first"), (&other, "second")] {
        reload(browser, tab)?;
        assert_eq!(value(browser, tab)?, chart(text));
    }
    assert_eq!(said(browser, &other, "counter")?, "tick 2 of 2");
    // a new tab takes up what was closed
    browser.close(other)?;
    let third = open(browser, page)?;
    assert_eq!(
        [value(browser, &third)?, said(browser, &third, "counter")?],
        [chart("second"), "tick 2 of 2".to_string()]
    );
    assert_eq!(offered(browser, &third)?, "");
    browser.close(third)?;
    browser.close(one)?;
    // of two that were closed the latest, and the other can be had too, whole
    let fourth = open(browser, page)?;
    assert_eq!(value(browser, &fourth)?, chart("first"));
    assert_eq!(offered(browser, &fourth)?, "roughing.txt: # second s");
    write(browser, &fourth, &chart("first, and on"))?;
    choose(browser, &fourth, "list.querySelector('optgroup[label^=works] option').value")?;
    browser.ask(&fourth, "document.getElementById('text')?.value.includes('second') ? '' : undefined")?;
    browser.ask(&fourth, BEGUN)?;
    assert_eq!(said(browser, &fourth, "counter")?, "tick 2 of 2");
    assert_eq!(offered(browser, &fourth)?, "roughing.txt: # first, a");
    // what an address shows takes the place of no work
    let shown = browser
        .open(&page.with_file_name(format!("{}#example=bore.txt&words=0*3", page.file_name()?.to_str()?)))?;
    browser.ask(&shown, BEGUN)?;
    assert_eq!(said(browser, &shown, "counter")?, "tick 2 of 2");
    browser.close(shown)?;
    browser.close(fourth)?;
    let fifth = open(browser, page)?;
    assert_eq!(
        [value(browser, &fifth)?, offered(browser, &fifth)?],
        [chart("second"), "roughing.txt: # first, a".to_string()]
    );
    Some(())
}

/// A tab that another opens, or that is made of it, has the same work, and each goes on with its own.
fn a_copy_goes_on_by_itself(browser: &mut Browser, page: &Path) -> Option<()> {
    let one = open(browser, page)?;
    write(browser, &one, &chart("first"))?;
    reload(browser, &one)?;
    let copy = browser.opened_by(&one, "window.open(location.href)")?;
    browser.ask(&copy, BEGUN)?;
    assert_eq!(value(browser, &copy)?, chart("first"));
    write(browser, &copy, &chart("copy"))?;
    for (tab, text) in [(&copy, "copy"), (&one, "first"), (&copy, "copy")] {
        reload(browser, tab)?;
        assert_eq!(value(browser, tab)?, chart(text));
    }
    Some(())
}

/// A new tab takes up the latest work there, and who had it goes on in another place.
fn nothing_is_written_over_without_locks(browser: &mut Browser, page: &Path) -> Option<()> {
    let none = "Object.defineProperty(Navigator.prototype, 'locks', { value: undefined });";
    let mut open = || {
        let tab = browser.open_after(page, none)?;
        browser.ask(&tab, BEGUN)?;
        Some(tab)
    };
    let one = open()?;
    write(browser, &one, &chart("first"))?;
    browser
        .ask(&one, "Object.values(localStorage).some((kept) => kept.includes('first')) ? '' : undefined")?;
    let other = browser.open_after(page, none)?;
    browser.ask(&other, BEGUN)?;
    assert_eq!(value(browser, &other)?, chart("first"));
    write(browser, &other, &chart("second"))?;
    write(browser, &one, &chart("first, and on"))?;
    for (tab, text) in [(&one, "first, and on"), (&other, "second"), (&one, "first, and on")] {
        reload(browser, tab)?;
        assert_eq!(value(browser, tab)?, chart(text));
    }
    Some(())
}

/// A text that was marked whole and typed over by one letter can be had again, also when the page was loaded anew; so can a scenario.
fn typed_over(browser: &mut Browser, page: &Path) -> Option<()> {
    let one = open(browser, page)?;
    write(browser, &one, &chart("of an hour's work"))?;
    write(browser, &one, "x")?;
    browser.ask(&one, "(document.getElementById('scenario').focus(), '')")?;
    browser.type_text(&one, "- * 2; expect nothing at all\n")?;
    browser.ask(&one, "(document.getElementById('scenario').select(), '')")?;
    browser.type_text(&one, "-")?;
    reload(browser, &one)?;
    assert_eq!(value(browser, &one)?, "x");
    let left = "Array.from(document.querySelectorAll('#earlier optgroup[label^=left] option'), (one) => one.textContent.slice(0, 20)).join()";
    assert_eq!(browser.ask(&one, left)?, "scenario: - * 2; exp,roughing.txt: # of a");
    choose(browser, &one, "'1'")?;
    assert_eq!(value(browser, &one)?, chart("of an hour's work"));
    // a line more leaves nothing
    let before = browser.ask(&one, left)?;
    browser.ask(&one, "(document.getElementById('text').focus(), '')")?;
    browser.type_text(&one, "# more\n")?;
    assert_eq!(browser.ask(&one, left)?, before);
    Some(())
}

/// A page that goes away while there is a slip in its text.
fn by_accident(browser: &mut Browser, page: &Path) -> Option<()> {
    let address = page.with_file_name(format!("{}#example=bore.txt", page.file_name()?.to_str()?));
    let one = browser.open(&address)?;
    browser.ask(&one, BEGUN)?;
    browser.press(&one, &[("1", 0)])?;
    browser.press(&one, &[("ArrowRight", 0); 7])?;
    browser.press(&one, &[("ArrowLeft", 0), ("k", 0)])?;
    let slip = value(browser, &one)?.replace("# The", "# A slip and The").replace("-> look", "-> loook");
    write(browser, &one, &slip)?;
    let compared = said(browser, &one, "compared")?;
    assert_eq!(compared, "both runs have the same 7 ticks");
    let left = [said(browser, &one, "counter")?, said(browser, &one, "node")?];
    // loaded again the page goes on as it was left, whatever its address
    reload(browser, &one)?;
    assert_eq!(
        [value(browser, &one)?, browser.ask(&one, "document.getElementById('checked').className")?],
        [slip.clone(), "refused".to_string()]
    );
    write(browser, &one, &slip.replace("loook", "look"))?;
    assert_eq!([said(browser, &one, "counter")?, said(browser, &one, "node")?], left);
    assert_eq!(said(browser, &one, "compared")?, compared);
    assert_eq!(left, ["tick 5 of 6", "end of drilling"]);
    Some(())
}

/// An item without text, one that is none, and a number for a text are passed over; so is what was cut off.
const DAMAGED: [(&str, &str, &str); 2] = [
    (
        "JSON.stringify({ name: 'c.txt', text: '# of before\\nscheme 1\\nbegin -> end\\nend\\n', accepted: 5, words: '8,0', places: 3, \
         shown: 1, earlier: [{ name: 'a' }, null, { name: 'b', text: 'a text' }] })",
        "# of before",
        "c.txt|3|tick 1 of 1|b: a text",
    ),
    ("'{\"text\":\"scheme 1'", "# While", "roughing.txt|32|no tick yet|"),
];

fn damaged(browser: &mut Browser, page: &Path, (kept, text, other): (&str, &str, &str)) -> Option<()> {
    let blank = open(browser, page)?;
    browser.ask(&blank, &format!("(localStorage.setItem('fairleadow-workbench', {kept}), '')"))?;
    let tab = open(browser, page)?;
    let whole = "What this browser kept of the page is damaged: what cannot be read of it is passed over.";
    assert_eq!(said(browser, &tab, "fault")?, whole);
    assert!(value(browser, &tab)?.starts_with(text), "{}", value(browser, &tab)?);
    let told = "[document.getElementById('name').textContent, document.getElementById('places').value, \
                document.getElementById('counter').textContent, \
                Array.from(document.querySelectorAll('#earlier optgroup[label^=left] option'), (one) => one.textContent).join()].join('|')";
    assert_eq!(browser.ask(&tab, told)?, other);
    Some(())
}

/// As much as there is room for is kept, each part whole, and the page says what is not.
fn no_room(browser: &mut Browser, page: &Path) -> Option<()> {
    let tab = open(browser, page)?;
    let kept = said(browser, &tab, "kept-where")?;
    assert!(kept.starts_with("The text and the run are kept in this browser"), "{kept}");
    write(browser, &tab, &chart("long"))?;
    // all but some room is taken by something else
    let fill = "((room) => { localStorage.setItem('room', 'x'.repeat(room)); for (let size = 1 << 22, at = 0; size >= 1; at += 1) { \
                try { localStorage.setItem('filler' + at, 'x'.repeat(size)); } catch (error) { size >>= 1; } } \
                localStorage.removeItem('room'); return ''; })(60000)";
    browser.ask(&tab, fill)?;
    let run =
        "(document.getElementById('feed-times').value = '65536', document.getElementById('fed').click(), '')";
    browser.ask(&tab, run)?;
    let footer = "document.getElementById('kept-where')";
    let telling =
        |words: &str| format!("{footer}.textContent.includes('{words}') ? {footer}.className : undefined");
    let without_run = "Not kept, as this browser has no room for it: the run; save what is needed of it";
    assert_eq!(browser.ask(&tab, &telling(without_run))?, "alarm");
    assert_eq!(said(browser, &tab, "counter")?, "tick 65535 of 65535");
    reload(browser, &tab)?;
    assert_eq!(browser.asked, 1, "the page asks before it goes");
    assert_eq!(
        [value(browser, &tab)?, said(browser, &tab, "counter")?],
        [chart("long"), "no tick yet".to_string()]
    );
    assert_eq!(
        said(browser, &tab, "fault")?,
        "When this page was closed this browser had no room for all of it. Not kept: the run."
    );
    // texts that were left are kept before the run, and the text before them
    let long = |name: &str| format!("# {name} {}\n{}", "x".repeat(40_000), chart("long"));
    write(browser, &tab, &long("one"))?;
    browser.ask(&tab, &telling("are kept in this browser"))?;
    browser.ask(&tab, "((list) => { list.value = 'home.txt'; list.dispatchEvent(new Event('change', { bubbles: true })); return ''; })(document.getElementById('examples'))")?;
    write(browser, &tab, &long("other"))?;
    let without_earlier = "no room for it: the texts that were left earlier; save what is needed";
    assert_eq!(browser.ask(&tab, &telling(without_earlier))?, "alarm");
    browser.ask(&tab, run)?;
    browser.ask(&tab, &telling("no room for it: the run, and the texts that were left earlier; save"))?;
    // where not even the text has room, what was kept before stays
    write(browser, &tab, &long("longest").repeat(3))?;
    assert_eq!(
        browser.ask(&tab, &telling("This browser has no more room: what was changed after "))?,
        "alarm"
    );
    browser.ask(
        &tab,
        "Object.values(localStorage).some((kept) => kept.includes('# other xxx')) ? '' : undefined",
    )?;
    // and with room again all is kept
    browser.ask(&tab, "(Object.keys(localStorage).filter((key) => key.startsWith('filler')).forEach((key) => localStorage.removeItem(key)), '')")?;
    write(browser, &tab, &long("longest"))?;
    assert_eq!(browser.ask(&tab, &telling("are kept in this browser"))?, "soft");
    reload(browser, &tab)?;
    assert_eq!(
        [value(browser, &tab)?, said(browser, &tab, "counter")?],
        [long("longest"), "tick 65535 of 65535".to_string()]
    );
    Some(())
}

/// A browser that lets a page keep nothing has it run all the same, says so, and asks before it goes.
fn keeps_nothing(browser: &mut Browser, page: &Path) -> Option<()> {
    let refuse = "Object.defineProperty(window, 'localStorage', { get() { throw new DOMException('no', 'SecurityError'); } });";
    let tab = browser.open_after(page, refuse)?;
    browser.ask(&tab, BEGUN)?;
    let kept = said(browser, &tab, "kept-where")?;
    assert!(kept.starts_with("What is done here is not kept in this browser: save the chart"), "{kept}");
    browser.press(&tab, &[("ArrowRight", 0), ("ArrowRight", 0)])?;
    assert_eq!(said(browser, &tab, "counter")?, "tick 1 of 1");
    reload(browser, &tab)?;
    assert_eq!(browser.asked, 1);
    assert_eq!(said(browser, &tab, "counter")?, "no tick yet");
    Some(())
}
