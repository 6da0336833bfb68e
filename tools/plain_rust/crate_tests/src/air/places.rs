//! The kinds of places: who hears whom, worked out by hand from their descriptions.

use std::dialect::*;

use air_draws::{Draws, Purpose};
use line_place::{
    Costs, Field, Grid, Layout, Link, Losses, MeasuredLink, Place, Scattering, Street, Tower,
};
use std::test::Fail;

#[test]
fn has_the_houses_of_a_street() {
    std::test::check(|rt: HostRuntime| {
    let street = Street {
        meters: 6,
        reach: 2,
        middle: true,
    };
    // the houses are those of 1, 2, 3, 0, 4, 5 and 6
    for (a, b, far) in [
        (3, 0, Some(0)),
        (0, 4, Some(0)),
        (3, 4, Some(1)),
        (2, 0, Some(1)),
        (2, 4, None),
        (1, 3, Some(1)),
        (1, 0, None),
        (5, 5, None),
    ] {
        assert_eq!(rt; street.far(a, b), far);
        assert_eq!(rt; street.far(b, a), far);
    }
})
}

#[test]
fn has_the_floors_of_a_tower() {
    std::test::check(|rt: HostRuntime| {
    let tower = Tower {
        floors: 4,
        flats: 2,
        reach: 2,
    };
    // meters 1 and 2 have the lowest floor of the first riser, 9 and 10 that of the second
    for (a, b, far) in [
        (0, 1, Some(0)),
        (0, 3, Some(1)),
        (0, 5, None),
        (1, 2, Some(0)),
        (1, 4, Some(0)),
        (1, 6, Some(1)),
        (1, 8, None),
        (2, 9, None),
        (0, 10, Some(0)),
        (9, 13, Some(1)),
    ] {
        assert_eq!(rt; tower.far(a, b), far);
        assert_eq!(rt; tower.far(b, a), far);
    }
})
}

#[test]
fn has_the_units_of_a_grid() {
    std::test::check(|rt: HostRuntime| {
    let grid = Grid { wide: 4, reach: 3 };
    for (a, b, far) in [
        (0, 1, Some(0)),
        (0, 2, Some(1)),
        (0, 3, Some(2)),
        (0, 5, Some(0)),
        (0, 6, Some(1)),
        (0, 10, Some(1)),
        (0, 11, None),
        (3, 4, None),
    ] {
        assert_eq!(rt; grid.far(a, b), far);
        assert_eq!(rt; grid.far(b, a), far);
    }
})
}

#[test]
fn has_losses_and_costs() {
    std::test::check(|rt: HostRuntime| {
    let losses = Losses {
        nearest: 500,
        step: 1_000,
    };
    for (steps, loss, cost) in [
        (0, 500, 9),
        (1, 1_500, 10),
        (5, 5_500, 18),
        (9, 9_500, 160),
        (10, 9_900, 255),
        (4_000_000_000, 9_900, 255),
    ] {
        assert_eq!(rt; losses.at(steps), loss);
        assert_eq!(rt; Costs::ByLoss.of(loss), cost);
        assert_eq!(rt; Costs::Same(7).of(loss), 7);
    }
})
}

#[test]
fn has_measured_links_one_way() {
    std::test::check(|rt: HostRuntime| -> Result<(), Fail> {
    let alloc = rt.alloc();
    let there = MeasuredLink {
        from: 0,
        link: Link {
            to: 1,
            loss: 300,
            cost: 9,
        },
    };
    let place = Place::measured(alloc, 3, &[there])?;
    assert_eq!(rt; place.nodes(), 3);
    assert_eq!(rt; place.loss(0, 1), 300);
    assert_eq!(rt; place.loss(1, 0), 10_000);
    assert_eq!(rt; place.hearers(0).len(), 1);
    assert_eq!(rt; place.hearers(7).len(), 0);
    assert!(rt; !place.is_connected(alloc)?);
    for (hop, known) in place.hops(alloc)?.iter().zip([true, true, false]) {
        assert_eq!(rt; hop.is_some(), known);
    }
    Ok(())
})
}

// The houses are those of 1, 2, 3, 0, 4, 5 and 6, and each hears the next two.
#[test]
fn has_the_hops_of_a_street() {
    std::test::check(|rt: HostRuntime| -> Result<(), Fail> {
    let alloc = rt.alloc();
    let layout = Layout::InStreet(Street {
        meters: 6,
        reach: 2,
        middle: true,
    });
    let losses = Losses {
        nearest: 0,
        step: 0,
    };
    let place = Place::on(alloc, 7, &layout, &losses, &Costs::Same(8))?;
    let hops = place.hops(alloc)?;
    assert_eq!(rt; hops.len(), 7);
    for (hop, so_many) in hops.iter().zip([0, 2, 1, 1, 1, 1, 2]) {
        assert_eq!(rt; *hop, Some(so_many));
    }
    Ok(())
})
}

/// The place that other code draws by the same rules, from the same words of PCG32.
#[test]
fn has_the_same_scatter_as_other_code() {
    std::test::check(|rt: HostRuntime| -> Result<(), Fail> {
    let alloc = rt.alloc();
    let field = Field {
        meters: 40,
        wide: 12,
        high: 8,
        reach: 3,
    };
    let losses = Losses {
        nearest: 1_000,
        step: 2_000,
    };
    let mut draws = Draws::new(1, Purpose::Place);
    match field.scatter(alloc, &mut draws, &losses, &Costs::ByLoss)? {
        Scattering::Connected(place) => {
            let mut links = 0_usize;
            for node in 0..41 {
                links = links.wrapping_add(place.hearers(node).len());
            }
            assert_eq!(rt; links, 364);
            for (link, to) in place
                .hearers(17)
                .iter()
                .zip([1, 2, 3, 5, 6, 7, 10, 19, 21, 25, 31, 34, 35, 39])
            {
                assert_eq!(rt; link.to, to);
                let loss = if [3, 5, 31].contains(&to) {
                    1_000
                } else {
                    3_000
                };
                assert_eq!(rt; link.loss, loss);
            }
        }
        Scattering::Apart => assert!(rt; false),
    }
    // no more was drawn than that
    assert_eq!(rt; draws.word(), 0xc4e2_104d);
    Ok(())
})
}
