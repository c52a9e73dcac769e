//! What can be seen and reached: contrast and names, a narrow screen, keys alone, and paper.

use std::path::Path;
use std::process::{Command, Stdio};

use super::chromium::{folder, with, Browser, Tab};
use super::{one, Told};

/// The width of the narrowest screen, in dots.
const NARROWEST: usize = 320;
/// The most stops of the tab key, however large the chart.
const MOST_STOPS: usize = 70;

pub fn sight(told: &Told) {
    let faintest = one(told, "contrast").split(' ').next().and_then(|ratio| ratio.parse::<f64>().ok());
    assert!(faintest.is_some_and(|faintest| faintest >= 4.5), "{}", one(told, "contrast"));
    println!("{} texts on their grounds, the faintest {}", one(told, "texts"), one(told, "contrast"));
    assert_eq!(["unnamed", "twice", "wider", "loaded"].map(|name| one(told, name)), ["", "", "", "0"]);
}

fn addressed(browser: &mut Browser, page: &Path, end: &str) -> Option<Tab> {
    let tab = browser.open(&page.with_file_name(format!("{}#{end}", page.file_name()?.to_str()?)))?;
    browser.ask(&tab, "document.getElementById('text')?.readOnly === false ? '' : undefined")?;
    Some(tab)
}

/// A narrow screen has all of the page within its width, whatever is told, and the steps stay in sight.
pub fn narrow(name: &str, page: &Path) {
    with(name, |browser| {
        let tab = addressed(browser, page, "example=swapped.txt&words=random:1&tick=20")?;
        browser.resize(&tab, NARROWEST, 640)?;
        let wide = "Array.from(document.querySelectorAll('body *')).filter((one) => one.getBoundingClientRect().right > document.documentElement.clientWidth && \
                    !one.closest('#sheet, #pane, #graph, #text, pre, .unseen, script, style')).map((one) => one.id || one.tagName).join()";
        let slip = "((field) => { field.value = field.value.replace('->', '-> a_name_of_no_node_that_is_rather_long'); \
                    field.dispatchEvent(new Event('input', { bubbles: true })); return ''; })(document.getElementById('text'))";
        let image = "((list) => { list.value = 'roughing.image'; list.dispatchEvent(new Event('change', { bubbles: true })); return ''; })\
                     (document.getElementById('examples'))";
        let names = "((field) => { field.value = 'begin -> a_name_of_no_node_that_is_rather_long\\n'; \
                     field.dispatchEvent(new Event('input', { bubbles: true })); return ''; })(document.getElementById('names'))";
        let file = "((files) => { files.items.add(new File([new Uint8Array(40)], 'a_long_name_'.repeat(9))); \
                    document.body.dispatchEvent(new DragEvent('drop', { dataTransfer: files, bubbles: true, cancelable: true })); \
                    return ''; })(new DataTransfer())";
        for state in ["''", slip, image, names, file] {
            browser.ask(&tab, state)?;
            assert_eq!(browser.ask(&tab, wide)?, "");
            let both = ["scrollWidth", "clientWidth"]
                .map(|width| format!("String(document.documentElement.{width})"));
            assert_eq!(browser.ask(&tab, &both[0])?, browser.ask(&tab, &both[1])?);
        }
        // the red box is in sight, and so are the steps wherever the page was scrolled to
        let in_sight = "(document.getElementById('unable').getBoundingClientRect().bottom < innerHeight ? '' : undefined)";
        browser.ask(&tab, in_sight)?;
        browser.ask(&tab, "(document.getElementById('bill').scrollIntoView(), '')")?;
        let step = "String(document.getElementById('step').getBoundingClientRect().top >= 0 && \
                    document.getElementById('step').getBoundingClientRect().bottom < innerHeight)";
        assert_eq!(browser.ask(&tab, step)?, "true");
        Some(())
    });
}

/// By keys alone: each control is reached, in few stops, and what has many things is gone through by arrows.
pub fn keys(name: &str, page: &Path, large: &str) {
    with(name, |browser| {
        let tab = addressed(browser, page, "example=roughing.txt&words=random:1&tick=3")?;
        let here = "(document.activeElement.id || document.activeElement.dataset.condition || document.activeElement.tagName)";
        let stops = |browser: &mut Browser| {
            browser.ask(&tab, "(document.activeElement.blur(), '')")?;
            let mut stops = Vec::new();
            loop {
                browser.press(&tab, &[("Tab", 0)])?;
                let stop = browser.ask(&tab, here)?;
                if stop == "BODY" || stops.len() > 400 {
                    return Some(stops);
                }
                stops.push(stop);
            }
        };
        let reached = stops(browser)?;
        let controls = browser.ask(&tab, "Array.from(document.querySelectorAll('button, select, input, textarea')).filter((one) => !one.disabled && one.checkVisibility()).map((one) => one.id || one.dataset.condition).join()")?;
        for control in controls.split(',') {
            assert!(
                reached.iter().any(|stop| stop == control),
                "the tab key does not lead to {control}: {reached:?}"
            );
        }
        // in the drawing and in the table arrows lead from one to the next, and Enter shows its tick
        let tick = |browser: &mut Browser| {
            browser.ask(&tab, "(document.body.dataset.tick + ' ' + document.body.dataset.node)")
        };
        browser.ask(&tab, "(document.querySelector('#sheet .node[tabindex=\"0\"]').focus(), '')")?;
        let first = tick(browser)?;
        browser.press(&tab, &[("ArrowDown", 0), ("Enter", 0)])?;
        let node = browser.ask(&tab, "document.activeElement.id")?;
        assert!(tick(browser)?.ends_with(&format!(" {node}")) && tick(browser)? != first, "{first}: {node}");
        browser.ask(&tab, "(document.querySelector('#ticks tbody tr[tabindex=\"0\"]').focus(), '')")?;
        browser
            .press(&tab, &[("ArrowUp", 0), ("Enter", 0), ("ArrowDown", 0), ("ArrowDown", 0), ("Enter", 0)])?;
        let row = browser.ask(&tab, "document.activeElement.dataset.tick")?;
        assert!(tick(browser)?.starts_with(&format!("{row} ")), "{row}");
        // what is typed is typed, and out of the text the keys step
        browser.ask(&tab, "(document.activeElement.blur(), '')")?;
        browser.press(&tab, &[("e", 0)])?;
        assert_eq!(browser.ask(&tab, here)?, "text");
        browser.ask(&tab, "(document.getElementById('text').select(), '')")?;
        browser.type_text(&tab, large)?;
        assert_eq!(browser.ask(&tab, "document.getElementById('checked').className")?, "");
        browser.press(&tab, &[("Escape", 0), ("n", 0), ("ArrowRight", 0), ("ArrowRight", 0)])?;
        assert_eq!(browser.ask(&tab, "document.getElementById('counter').textContent")?, "tick 1 of 1");
        let many = stops(browser)?;
        assert!(many.len() < MOST_STOPS, "{} stops: {many:?}", many.len());
        Some(())
    });
}

/// On paper stand what `check` says, the tick that is shown with the drawing, and the table; no button.
pub fn paper(name: &str, page: &Path) {
    let installed = Command::new("pdftotext").arg("-v").stdout(Stdio::null()).stderr(Stdio::null()).status();
    if installed.is_err() {
        return println!(
            "the page on paper is left out: pdftotext is not installed (Debian's package poppler-utils)"
        );
    }
    let words = with(name, |browser| {
        let tab = addressed(browser, page, "example=bore.txt&words=0*8,8*4&tick=2")?;
        browser.print(&tab)
    });
    let paper = folder().join("workbench.pdf");
    std::fs::write(&paper, words).expect("a folder that can be written");
    let read = Command::new("pdftotext").args(["-layout"]).arg(&paper).arg("-").output().expect("it starts");
    let read = String::from_utf8_lossy(&read.stdout).into_owned();
    for words in [
        "Fairleadow workbench",
        "accepted: a chart of 10 nodes in 2 schemes",
        "lower of bore_test",
        "probe_down on",
        "scheme bore_test",
        "what happens",
        "call of bore_test",
        "What the library answers",
    ] {
        assert!(read.contains(words), "{words} is not on the paper: {read}");
    }
    for words in ["go on from here", "run them", "from a file", "put away", "Open…"] {
        assert!(!read.contains(words), "{words} is on the paper: {read}");
    }
    // each tick has its row
    let rows = read.lines().filter(|line| line.contains(" 0x00")).count();
    assert_eq!(rows, 12, "{read}");
}
