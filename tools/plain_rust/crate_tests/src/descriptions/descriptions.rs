//! Descriptions, with what they say or what is wrong with them.

use std::dialect::*;

use line_plan::Plan;
use std::test::Fail;

const STREET: &str = "title = \"a street of 60 meters\"
[place]
kind = \"street\"           # each house hears the next four on both sides
meters = 60
coordinator = \"middle\"    # the transformer
reach = 4
loss = 5                  # per cent
[readings]
from = \"02:00\"
[[at]]
at = \"01:00\"
what = \"noise\"
nodes = [20, 21]
loss = 80.5
for = \"70m\"
[[at]]
at = \"02:00\"
what = \"rekey\"
";

#[test]
fn has_what_a_description_says() {
    std::test::check(|rt: HostRuntime| -> Result<(), Fail> {
    let Ok(plan) = Plan::read(rt.alloc(), STREET) else {
        assert!(rt; false);
        return Ok(());
    };
    assert_eq!(rt; plan.seed, 1);
    assert_eq!(rt; plan.length, 86_400);
    assert_eq!(rt; plan.place.meters(), 60);
    assert_eq!(rt; plan.place.losses.nearest, 500);
    assert_eq!(rt; plan.place.losses.step, 500);
    assert_eq!(rt; plan.owner.readings.from, 7_200);
    assert_eq!(rt; plan.owner.joining.within, 600);
    assert_eq!(rt; plan.air.waits.jitter_ms, 300);
    assert_eq!(rt; plan.incidents.incidents().len(), 2);
    Ok(())
})
}

#[test]
fn has_the_place_of_a_fault() {
    std::test::check(|rt: HostRuntime| -> Result<(), Fail> {
    let alloc = rt.alloc();
    for (text, said) in [
        (
            "title = \"a\"\nsede = 3\n",
            "line 2, column 1: no key outside all tables is called `sede`; did you mean `seed`?",
        ),
        (
            "[place]\n  metres = 9\n",
            "line 2, column 3: no key in [place] with kind = \"street\" is called `metres`; did you mean `meters`?",
        ),
        (
            "[air]\nrate = \"fast\"\n",
            "line 2, column 1: the value of rate has to be \"robo\", \"dbpsk\", \"dqpsk\" or \"d8psk\"",
        ),
        (
            "[[at]]\nat = 1\nwhat = \"kick\"\n[[at]]\nat = 2\nwhat = \"kick\"\nfro = 3\n",
            "line 7, column 1: no key in [[at]] with what = \"kick\" is called `fro`; did you mean `from` in [joining]?",
        ),
        (
            "[place]\nmeters = 999\n",
            "line 2, column 1: the value of meters has to be a number from 1 to 998",
        ),
        (
            "[readings]\nevery = \"soon\"\n",
            "line 2, column 1: the value of every has to be a time of at most 400 days, as 90, \"90s\", \"5m\", \"2h\", \"1d\" or \"06:30\"",
        ),
        (
            "[place]\nkind = \"matrix\"\nlinks = [\n[0, 1, 5],\n[1, 0, 5],\n]\ncosts = 2\n",
            "line 7, column 1: no key in [place] with kind = \"matrix\" is called `costs`; did you mean `cost`?",
        ),
        (
            "[air]\n\"rate\" = \"robo\"\n\"r\\u0061tes\" = 1\n",
            "line 3, column 1: no key in [air] is called `rates`; did you mean `rate`?",
        ),
        (
            "title = \"a\"\n[place]\nmeters = 2\n  [reading]\nevery = 3\n",
            "line 4, column 3: no key outside all tables is called `reading`; did you mean `readings`?",
        ),
        (
            "title = \"a\"\nreading.every = 3\n[place]\nmeters = 2\n",
            "line 2, column 1: no key outside all tables is called `reading`; did you mean `readings`?",
        ),
        (
            "[place]\nmeters = 2\n[at]\nat = 3\n",
            "line 3, column 1: the value of at has to be tables [[at]]",
        ),
        (
            "[place]\nmeters = 3\nreach = 1\n[[at]]\nat = 1\nwhat = \"link\"\nnodes = [1, 3]\n",
            "line 7, column 1: the value of nodes has to be a list of two nodes of which one hears the other",
        ),
        (
            "[[at]]\nat = 1\nwhat = \"link\"\nnodes = [1, 1]\n",
            "line 4, column 1: the value of nodes has to be a list of two different nodes",
        ),
        (
            "[[at]]\nat = 1\nwhat = \"kick\"\nnode = 0\n",
            "line 4, column 1: the value of node has to be a number from 1 to 60",
        ),
        (
            "[[at]]\nat = 1\nwhat = \"kick\"\nnodes = [0, 1]\n",
            "line 4, column 1: the value of nodes has to be a list of meters of the line",
        ),
        (
            "[[at]]\nat = 1\nwhat = \"power\"\nnode = 1\nnodes = [2]\n",
            "line 4, column 1: the value of node has to be left out where nodes are listed",
        ),
        (
            "[air]\nmin_be = 9\nmax_be = 3\n",
            "line 2, column 1: the value of min_be has to be a number up to 3",
        ),
        (
            "title = \"a \\u0085 b\"\n",
            "line 1, column 1: the value of title has to be one line of at most 200 octets, without control characters",
        ),
        (
            "title = \"a \\u202E b\"\n",
            "line 1, column 1: the value of title has to be one line of at most 200 octets, without control characters",
        ),
        (
            "title = \"a\\nb\"\n",
            "line 1, column 1: the value of title has to be one line of at most 200 octets, without control characters",
        ),
    ] {
        match Plan::read(alloc, text) {
            Ok(_) => assert!(rt; false),
            Err(fault) => assert_eq!(rt; format!(in alloc; "{fault}")?.as_str(), said),
        }
    }
    Ok(())
})
}
