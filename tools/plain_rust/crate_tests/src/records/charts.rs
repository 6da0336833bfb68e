use std::dialect::*;

use super::stories::small;
use line_record::{Course, Fate, Pasts};
use run_charts::{ChartRun, push_chart};
use std::alloc::{AllocError, Global};
use std::test::Fail;

fn course(to: Option<u32>, fate: Fate) -> Course {
    Course {
        story: 1,
        to,
        fate,
        bears: false,
        overheard: false,
        search: 0,
    }
}

fn sentences(alloc: Global) -> Result<Vec<String>, AllocError> {
    let mut texts = Vec::new(alloc);
    for text in ["", "", "", "it comes up", "it waits", "Ticked"] {
        texts.push(String::from_str(alloc, text)?)?;
    }
    Ok(texts)
}

// Whether the chart of one event of the small run is this.
fn is_chart(alloc: Global, event: usize, chart: &str) -> Result<bool, AllocError> {
    let run_record = small(alloc)?;
    let sentences = sentences(alloc)?;
    let courses = [
        course(Some(0), Fate::WentOn { event: 4 }),
        course(None, Fate::Missed),
    ];
    let pasts = Pasts::new(alloc);
    let run = ChartRun {
        alloc,
        run_record: &run_record,
        courses: &courses,
        sentences: sentences.as_slice(),
        notes: &[],
        pasts: &pasts,
    };
    let mut out = Vec::new(alloc);
    push_chart(&mut out, &run, &[event])?;
    Ok(out.as_slice() == chart.as_bytes())
}

// A datagram comes up, a request is never heard, and time passes.
#[test]
fn charts_of_one_event() {
    std::test::check(|rt: HostRuntime| -> Result<(), Fail> {
    for (event, chart) in [
        (
            4,
            "<div class=\"m\"><svg width=\"244\" height=\"68\" role=\"img\">\
             <text class=\"hd\" data-node=\"0\" x=\"106\" y=\"20\" text-anchor=\"middle\">the coordinator</text>\
             <path class=\"L none\" d=\"M106 30V64\"/>\
             <text class=\"hd\" data-node=\"1\" x=\"198\" y=\"20\" text-anchor=\"middle\">meter 1</text>\
             <path class=\"L none\" d=\"M198 30V64\"/><g data-f=\"1\"><text class=\"c\" x=\"2\" y=\"51\">4</text>\
             <circle class=\"B up\" cx=\"198\" cy=\"51\" r=\"3\"/><path class=\"A up\" d=\"M198 51H115\"/>\
             <path class=\"B up\" d=\"M106 51L115 47V55z\"/><text class=\"l\" x=\"152\" y=\"47\" text-anchor=\"middle\">1 data</text></g>\
             </svg><ol><li data-f=\"1\" title=\"it comes up\"><span class=\"p up\">Up</span>it comes up</li></ol></div>",
        ),
        (
            5,
            "<div class=\"m\"><svg width=\"152\" height=\"68\" role=\"img\">\
             <text class=\"hd\" data-node=\"1\" x=\"106\" y=\"20\" text-anchor=\"middle\">meter 1</text>\
             <path class=\"L none\" d=\"M106 30V64\"/><g data-f=\"2\"><text class=\"c\" x=\"2\" y=\"51\">5</text>\
             <rect class=\"B\" x=\"101\" y=\"46\" width=\"10\" height=\"10\"/></g></svg><ol><li data-f=\"0\" title=\"it waits\">\
             <span class=\"p\">Waiting</span>it waits<span class=\"late\"> \u{2014} flight 2 never delivered</span></li></ol></div>",
        ),
        (
            6,
            "<div class=\"m\"><svg width=\"60\" height=\"68\" role=\"img\"><g data-f=\"0\"><text class=\"c\" x=\"2\" y=\"51\">6</text>\
             <path class=\"T\" d=\"M54 51H60\"/></g></svg><ol><li data-f=\"0\" title=\"10 s pass\">\
             <span class=\"p\">Ticked</span>10 s pass</li></ol></div>",
        ),
    ] {
        assert!(rt; is_chart(rt.alloc(), event, chart)?);
    }
    Ok(())
})
}
