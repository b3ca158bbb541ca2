//! Each call, its options, its errors, rooms that are too small, and threads.
use noshinka::{
    back, build, check, diff, edit, fault_name, faults, feature, info, merge, mesh, neighbors,
    quality, remove, round, round_features, round_with_report, BackOptions, Collapsed, Edges, Edit,
    Error, Fault, FaultKind, Fix, Form, Grid, Lists, Numbers, QualityOptions, Reals, Rewind,
    RoundOptions, Scale, Topology, Transform,
};

const LEFT: &[u8] = br#"{"type":"Polygon","coordinates":[[[0,0],[1,0],[1,1],[0,1],[0,0]]]}"#;
const RIGHT: &[u8] = br#"{"type":"Polygon","coordinates":[[[1,0],[2,0],[2,1],[1,1],[1,0]]]}"#;
const SHARED_EDGE: &str = r#"{"arcs":[[[1,0],[-1,0],[0,1],[1,0]],[[1,0],[0,1]],[[1,0],[1,0],[0,1],[-1,0]]],"bbox":[0,0,2,1],"objects":{"a":{"geometries":[{"arcs":[[1,-1]],"type":"Polygon"},{"arcs":[[2,-2]],"type":"Polygon"}],"type":"GeometryCollection"}},"transform":{"scale":[1,1],"translate":[0,0]},"type":"Topology"}"#;
/// Numbers of each kind in properties, and what they become with hundredths of the area.
const NUMBERS: &[u8] = br#"{"type":"Feature","id":7.0,"properties":{"people":8400.0,"area":0.125,"rate":2.50},"geometry":null}"#;
const NUMBERS_ROUNDED: &str = r#"{"features":[{"geometry":null,"id":7,"properties":{"area":13,"people":8400,"rate":"2.5"},"type":"Feature"}],"type":"FeatureCollection"}"#;
/// A topology as other tools write it.
const LAND: &[u8] = br#"{"type":"Topology","transform":{"scale":[0.0036,0.0018],"translate":[-180,-90]},"arcs":[[[0,0],[1000,500],[500,0],[-1500,-500]]],"objects":{"land":{"type":"Polygon","arcs":[[0]],"id":"01001"}}}"#;

fn fault<T: std::fmt::Debug>(answer: Result<T, Error>) -> Fault {
    match answer {
        Err(Error::Fault(fault)) => fault,
        other => panic!("{other:?}"),
    }
}

fn shown(text: impl AsRef<[u8]>) -> String {
    String::from_utf8(text.as_ref().to_vec()).unwrap()
}

fn squares() -> Topology {
    Topology::new(SHARED_EDGE)
}

/// Two squares with these ids and names.
fn named_squares(ids: [i64; 2], names: [&str; 2]) -> Topology {
    let feature = |square: &[u8], id: i64, name: &str| {
        format!(
            r#"{{"type":"Feature","id":{id},"properties":{{"name":"{name}"}},"geometry":{}}}"#,
            shown(square)
        )
    };
    let (left, right) = (
        feature(LEFT, ids[0], names[0]),
        feature(RIGHT, ids[1], names[1]),
    );
    build(
        Grid::WHOLE,
        &[("a", left.as_bytes()), ("a", right.as_bytes())],
    )
    .unwrap()
}

/// Steps of 1, which are 1 in the result too.
fn whole_steps() -> RoundOptions<'static> {
    RoundOptions {
        step: Some("1"),
        unit: Some("1"),
        ..Default::default()
    }
}

#[test]
fn squares_are_built_merged_and_taken_apart() {
    let both = build(Grid::WHOLE, &[("a", LEFT), ("a", RIGHT)]).unwrap();
    assert_eq!(shown(&both), SHARED_EDGE);
    let (left, right) = (
        build(Grid::WHOLE, &[("a", LEFT)]).unwrap(),
        build(Grid::WHOLE, &[("a", RIGHT)]).unwrap(),
    );
    assert_eq!(merge(&[&right, &left, &right]).unwrap(), both);
    assert_eq!(remove(&both, &right).unwrap(), left);
    assert!(check(&both).unwrap());
    assert!(!check(format!("{SHARED_EDGE}\n").as_bytes()).unwrap());
}

#[test]
fn edits_come_one_after_the_other() {
    let (left, right) = (
        build(Grid::WHOLE, &[("a", LEFT)]).unwrap(),
        build(Grid::WHOLE, &[("a", RIGHT)]).unwrap(),
    );
    assert_eq!(edit(&left, &[]).unwrap(), left);
    assert_eq!(edit(&left, &[Edit::Add(&right)]).unwrap(), squares());
    let edits = [Edit::Take(&left), Edit::Add(&left), Edit::Take(&right)];
    assert_eq!(edit(&squares(), &edits).unwrap(), left);
    let refused = fault(edit(&left, &[Edit::Add(&right), Edit::Take(b"")]));
    assert_eq!((refused.kind, refused.place), (FaultKind::NotJson, 2));
    let tens = Grid {
        scale_x: 10,
        ..Grid::WHOLE
    };
    let other = build(tens, &[]).unwrap();
    let refused = fault(edit(&left, &[Edit::Add(&other)]));
    assert_eq!((refused.kind, refused.place), (FaultKind::OtherGrid, 1));
}

#[test]
fn questions_are_answered() {
    let text = squares();
    assert_eq!(
        shown(mesh(&text, None, Edges::Interior).unwrap()),
        r#"{"coordinates":[[[1,0],[1,1]]],"type":"MultiLineString"}"#
    );
    assert_eq!(
        mesh(&text, Some("a"), Edges::Interior),
        mesh(&text, None, Edges::Interior)
    );
    assert_ne!(
        mesh(&text, Some("a"), Edges::Exterior),
        mesh(&text, None, Edges::All)
    );
    assert_eq!(
        neighbors(&text, "a", None, Lists::Places).unwrap(),
        b"[[1],[0]]"
    );
    assert_eq!(neighbors(&text, "a", None, Lists::Ids), Err(Error::Usage));
    let lines = info(&text, Form::Lines).unwrap();
    assert!(lines.starts_with(b"grid: 1,1,0,0\nbbox: 0,0,2,1\n"));
    let json = info(&text, Form::Json).unwrap();
    assert!(json.starts_with(br#"{"arcs":3,"bbox":[0,0,2,1],"#));
}

#[test]
fn borders_and_neighbors_by_a_property() {
    let (alike, apart) = (
        named_squares([1, 2], ["x", "x"]),
        named_squares([1, 2], ["x", "y"]),
    );
    assert_eq!(
        shown(mesh(&apart, Some("a"), Edges::By("name")).unwrap()),
        r#"{"coordinates":[[[1,0],[1,1]]],"type":"MultiLineString"}"#
    );
    assert_eq!(
        shown(mesh(&alike, None, Edges::By("name")).unwrap()),
        r#"{"coordinates":[],"type":"MultiLineString"}"#
    );
    let by = |text: &Topology, lists| shown(neighbors(text, "a", Some("name"), lists).unwrap());
    assert_eq!(by(&alike, Lists::Places), "[[],[]]");
    assert_eq!(by(&apart, Lists::Ids), "[[2],[1]]");
    assert_eq!(by(&apart, Lists::KeyedIds), r#"{"1":[2],"2":[1]}"#);
    let twice = named_squares([1, 1], ["x", "y"]);
    assert_eq!(
        shown(neighbors(&twice, "a", None, Lists::Ids).unwrap()),
        "[[1],[1]]"
    );
    for text in [&twice, &squares()] {
        let keyed = neighbors(text, "a", None, Lists::KeyedIds);
        assert_eq!(keyed, Err(Error::Usage));
    }
}

/// A square of ten steps.
const TEN: &[u8] = br#"{"type":"Feature","id":1,"geometry":{"type":"Polygon","coordinates":[[[0,0],[10,0],[10,10],[0,10],[0,0]]]}}"#;

/// What `back` writes of TEN's topology.
fn ten_back(options: &BackOptions<'_>) -> Result<String, Error> {
    let text = build(Grid::WHOLE, &[("a", TEN)])?;
    back(&text, options).map(shown)
}

fn on(transform: Transform<'_>) -> BackOptions<'_> {
    BackOptions {
        transform,
        ..Default::default()
    }
}

#[test]
fn topologies_go_back_to_the_unit_of_the_map() {
    let wanted = |arc: &str| {
        format!(
            r#"{{"type":"Topology","transform":{{"scale":[0.000001,0.000001],"translate":[0,0]}},"bbox":[0,0,0.00001,0.00001],"objects":{{"a":{{"type":"GeometryCollection","geometries":[{{"id":1,"type":"Polygon","arcs":[[{arc}]]}}]}}}},"arcs":[[[0,0],[0,10],[10,0],[0,-10],[-10,0]]]}}"#
        )
    };
    assert_eq!(ten_back(&Default::default()).unwrap(), wanted("0"));
    for (rewind, arc) in [
        (Rewind::D3, "0"),
        (Rewind::Rfc7946, "-1"),
        (Rewind::Keep, "-1"),
    ] {
        let options = BackOptions {
            rewind,
            ..Default::default()
        };
        assert_eq!(ten_back(&options).unwrap(), wanted(arc));
    }
    let quarters = BackOptions {
        unit: Some("0.25"),
        ..Default::default()
    };
    let text = ten_back(&quarters).unwrap();
    assert!(
        text.contains(r#""scale":[0.25,0.25],"translate":[0,0]},"bbox":[0,0,2.5,2.5]"#),
        "{text}"
    );
    let kept = BackOptions {
        rewind: Rewind::Keep,
        ..Default::default()
    };
    let text = back(&squares(), &kept).unwrap();
    assert_eq!(
        round(&[("", &text)], &Default::default()).unwrap(),
        squares()
    );
}

#[test]
fn topologies_go_back_to_other_transforms() {
    let own = ten_back(&Default::default()).unwrap();
    let like: &[u8] =
        br#"{"type":"Topology","transform":{"scale":[0.000003,-5e-6],"translate":[0.000001,0]}}"#;
    for (transform, part) in [
        (
            Transform::Like(like),
            r#""arcs":[[[0,0],[0,-2],[3,0],[0,2],[-3,0]]]"#,
        ),
        (
            Transform::Count(4),
            r#""arcs":[[[0,0],[0,3],[3,0],[0,-3],[-3,0]]]"#,
        ),
        (
            Transform::Count(2),
            r#""arcs":[[[0,0],[0,1],[1,0],[0,-1],[-1,0]]]"#,
        ),
    ] {
        let text = ten_back(&on(transform)).unwrap();
        assert!(text.contains(part), "{text}");
    }
    assert_eq!(ten_back(&on(Transform::Like(own.as_bytes()))).unwrap(), own);
    assert_eq!(ten_back(&on(Transform::Count(11))).unwrap(), own);
    assert!(ten_back(&on(Transform::Count(1 << 40))).is_ok());
    for count in [0, 1, (1 << 40) + 1, u64::MAX] {
        assert_eq!(ten_back(&on(Transform::Count(count))), Err(Error::Usage));
    }
}

#[test]
fn texts_and_scaled_numbers_are_numbers_again() {
    let scales = [Scale {
        property: "area",
        zeros: 2,
    }];
    let scaled = RoundOptions {
        scales: &scales,
        ..Default::default()
    };
    let text = round(&[("a", NUMBERS)], &scaled).unwrap();
    let properties = |numbers, scales| {
        let options = BackOptions {
            numbers,
            scales,
            ..Default::default()
        };
        shown(back(&text, &options).unwrap())
    };
    for (numbers, scales, part) in [
        (
            Numbers::Stay,
            &[][..],
            r#"{"area":13,"people":8400,"rate":"2.5"}"#,
        ),
        (
            Numbers::Columns,
            &[],
            r#"{"area":13,"people":8400,"rate":2.5}"#,
        ),
        (
            Numbers::Named(&["rate", "none"]),
            &scales,
            r#"{"area":0.13,"people":8400,"rate":2.5}"#,
        ),
        (
            Numbers::Named(&[]),
            &[],
            r#"{"area":13,"people":8400,"rate":"2.5"}"#,
        ),
    ] {
        let text = properties(numbers, scales);
        assert!(text.contains(part), "{text}");
    }
}

#[test]
fn the_way_back_refuses() {
    let options = [
        BackOptions {
            unit: Some(""),
            ..Default::default()
        },
        BackOptions {
            unit: Some("0"),
            ..Default::default()
        },
        BackOptions {
            unit: Some("1e-31"),
            ..Default::default()
        },
        BackOptions {
            scales: &[Scale {
                property: "a",
                zeros: 13,
            }],
            ..Default::default()
        },
    ];
    for it in options {
        assert_eq!(ten_back(&it), Err(Error::Usage));
    }
    assert_eq!(
        fault(back(b"[", &Default::default())).to_string(),
        "text 0: 1 NotJson $"
    );
    for (like, wanted) in [
        (&b"["[..], "text 1: 1 NotJson $"),
        (
            b"{\"type\":\"Topology\"}",
            "text 1: 15 NoTransform $/transform",
        ),
    ] {
        let refused = fault(ten_back(&on(Transform::Like(like))));
        assert_eq!(refused.to_string(), wanted);
    }
}

#[test]
fn ids_and_near_vertices_are_found() {
    let ids = QualityOptions {
        ids: true,
        ..Default::default()
    };
    let found = |text: &Topology, options: &QualityOptions| shown(quality(text, options).unwrap());
    assert_eq!(
        found(&squares(), &Default::default()),
        r#"{"canonical":true,"ids":null,"near":null}"#
    );
    assert_eq!(
        found(&squares(), &ids),
        r#"{"canonical":true,"ids":[{"layer":"a","missing":[0,1],"repeated":[]}],"near":null}"#
    );
    let twice = named_squares([1, 1], ["x", "y"]);
    assert!(found(&twice, &ids).contains(r#""missing":[],"repeated":[0,1]"#));
    let near = |near, listed| QualityOptions {
        near,
        listed,
        ..ids
    };
    let two = named_squares([1, 2], ["x", "y"]);
    assert_eq!(
        found(&two, &near(1, 10)),
        r#"{"canonical":true,"ids":[{"layer":"a","missing":[],"repeated":[]}],"near":{"count":0,"pairs":[]}}"#
    );
    assert!(found(&two, &near(2, 2))
        .ends_with(r#","near":{"count":4,"pairs":[[[0,0],[2,0]],[[0,0],[2,1]]]}}"#));
    assert_eq!(quality(&two, &near(101, 10)), Err(Error::Usage));
    let longer = Topology::new(format!("{SHARED_EDGE}\n"));
    assert!(found(&longer, &ids).starts_with(r#"{"canonical":false,"#));
    assert_eq!(fault(quality(b"[", &ids)).kind, FaultKind::NotJson);
}

#[test]
fn features_are_iterated() {
    let odd = br#"{"type":"Feature","id":"}\"{","properties":{"a":{"b":"\\"},"c":[1,"]},{"]},"geometry":null}"#;
    let text = build(
        Grid::WHOLE,
        &[
            ("a", LEFT),
            ("a", odd),
            ("b", b"{\"type\":\"FeatureCollection\",\"features\":[]}"),
        ],
    )
    .unwrap();
    let layer = text.layer("a").unwrap();
    let features: Vec<String> = layer.features().map(shown).collect();
    assert_eq!(
        features,
        [
            r#"{"geometry":{"coordinates":[[[0,0],[1,0],[1,1],[0,1],[0,0]]],"type":"Polygon"},"properties":{},"type":"Feature"}"#,
            r#"{"geometry":null,"id":"}\"{","properties":{"a":{"b":"\\"},"c":[1,"]},{"]},"type":"Feature"}"#,
        ]
    );
    assert_eq!(
        shown(layer.text()),
        format!(
            r#"{{"features":[{}],"type":"FeatureCollection"}}"#,
            features.join(",")
        )
    );
    assert_eq!(text.layer("b").unwrap().into_iter().count(), 0);
    assert_eq!(fault(text.layer("q")).kind, FaultKind::NoLayer);
    assert_eq!(feature(&text, "a").unwrap(), layer);
}

#[test]
fn errors_say_kind_place_and_path() {
    let half = br#"{"type":"Point","coordinates":[0.5,1]}"#;
    let refused = fault(build(Grid::WHOLE, &[("a", LEFT), ("b", half)]));
    assert_eq!((refused.kind, refused.place), (FaultKind::NotWhole, 1));
    assert_eq!(refused.path, "$/coordinates/0");
    assert_eq!(
        Error::Fault(refused).to_string(),
        "text 1: 5 NotWhole $/coordinates/0"
    );
    assert_eq!(fault(merge(&[])).to_string(), "text 0: 18 BadPlan");
    assert_eq!(fault(remove(&squares(), b"")).place, 1);
    let grid = Grid {
        scale_x: 0,
        ..Grid::WHOLE
    };
    assert_eq!(build(grid, &[]), Err(Error::Usage));
    let error: Box<dyn std::error::Error + Send + Sync> = Error::OutOfMemory.into();
    assert_eq!(error.to_string(), "out of memory");
}

#[test]
fn kinds_have_the_names_and_numbers_of_the_library() {
    for (number, kind) in (1..).zip(FaultKind::ALL) {
        assert_eq!(kind.number(), number);
        assert_eq!(FaultKind::of_number(number), Some(kind));
        assert_eq!(fault_name(number).unwrap(), kind.to_string());
    }
    for number in [0, 22] {
        assert_eq!(FaultKind::of_number(number), None);
        assert_eq!(fault_name(number), Err(Error::Usage));
    }
}

#[test]
fn decimal_numbers_are_rounded() {
    let line = br#"{"type":"LineString","coordinates":[[0.5,-0.5],[1.5,2.5,9]]}"#;
    let rounded = round_features(&[("a", line)], &whole_steps()).unwrap();
    assert_eq!(
        shown(&rounded),
        r#"{"features":[{"geometry":{"coordinates":[[1,-1],[2,3]],"type":"LineString"},"properties":{},"type":"Feature"}],"type":"FeatureCollection"}"#
    );
    assert_eq!(rounded.features().count(), 1);
    assert_eq!(
        round(&[("a", LEFT), ("a", RIGHT)], &whole_steps()).unwrap(),
        squares()
    );
    let far = fault(round(
        &[
            ("a", LEFT),
            ("b", br#"{"type":"Point","coordinates":[0,90.5]}"#),
        ],
        &Default::default(),
    ));
    assert_eq!(
        (far.kind, far.place, far.path.as_str()),
        (FaultKind::OutOfRange, 1, "$/coordinates/1")
    );
    for word in ["", "0", "-1", "1m"] {
        let (step, unit) = (
            RoundOptions {
                step: Some(word),
                ..whole_steps()
            },
            RoundOptions {
                unit: Some(word),
                ..whole_steps()
            },
        );
        assert_eq!(round(&[("a", line)], &step), Err(Error::Usage));
        assert_eq!(round(&[("a", line)], &unit), Err(Error::Usage));
    }
}

#[test]
fn the_report_says_what_was_done() {
    let line = br#"{"type":"LineString","coordinates":[[0.5,-0.5],[1.5,2.5,9]]}"#;
    let (text, report) = round_with_report(&[("a", line)], &whole_steps()).unwrap();
    assert_eq!(text, round(&[("a", line)], &whole_steps()).unwrap());
    let report = shown(report);
    assert!(report.starts_with('{') && report.ends_with('}'), "{report}");
    for part in [
        r#""moved":2"#,
        r#""furthest":5000"#,
        r#""heights":1"#,
        r#""features":1"#,
    ] {
        assert!(report.contains(part), "{report}");
    }
}

#[test]
fn topologies_of_other_tools_are_rounded() {
    let layers = |options: &RoundOptions| {
        let text = round(&[("x", LAND)], options).unwrap();
        ["land", "x"].map(|name| text.layer(name).is_ok())
    };
    assert_eq!(layers(&Default::default()), [true, false]);
    let renamed = RoundOptions {
        renames: true,
        ..Default::default()
    };
    assert_eq!(layers(&renamed), [false, true]);
    let picked = |layer| RoundOptions {
        layer: Some(layer),
        ..Default::default()
    };
    assert_eq!(layers(&picked("land")), [true, false]);
    let missing = fault(round(&[("x", LAND)], &picked("sea")));
    assert_eq!(missing.to_string(), "text 0: 2 Missing $/objects/sea");
}

#[test]
fn properties_and_ids_are_rounded() {
    let scales = [Scale {
        property: "area",
        zeros: 2,
    }];
    let scaled = RoundOptions {
        scales: &scales,
        ..Default::default()
    };
    let rounded = |text: &[u8], options: &RoundOptions| {
        round_features(&[("a", text)], options).map(|features| shown(&features))
    };
    assert_eq!(rounded(NUMBERS, &scaled).unwrap(), NUMBERS_ROUNDED);
    let texts = RoundOptions {
        reals: Reals::Text,
        ..scaled.clone()
    };
    assert!(rounded(NUMBERS, &texts)
        .unwrap()
        .contains(r#""people":"8400","#));
    let refusing = RoundOptions {
        reals: Reals::Refuse,
        ..Default::default()
    };
    assert_eq!(
        fault(rounded(NUMBERS, &refusing)).kind,
        FaultKind::PropertyNumber
    );
    let many = [Scale {
        property: "area",
        zeros: 13,
    }];
    let bad = RoundOptions {
        scales: &many,
        ..Default::default()
    };
    assert_eq!(rounded(NUMBERS, &bad), Err(Error::Usage));
    let named = RoundOptions {
        id: Some("people"),
        ..Default::default()
    };
    assert!(rounded(NUMBERS, &named).unwrap().contains(r#""id":8400,"#));
    let missing = RoundOptions {
        id: Some("q"),
        ..Default::default()
    };
    assert_eq!(fault(rounded(NUMBERS, &missing)).kind, FaultKind::Missing);
    let numbered = RoundOptions {
        number: true,
        ..Default::default()
    };
    assert!(rounded(LEFT, &numbered).unwrap().contains(r#""id":1,"#));
}

#[test]
fn what_is_fixed_may_be_refused() {
    let fixing = whole_steps();
    let sets: [(&[u8], FaultKind, RoundOptions); 5] = [
        (
            br#"{"type":"Point","coordinates":[1,2,3]}"#,
            FaultKind::NotTwo,
            RoundOptions {
                heights: Fix::No,
                ..fixing.clone()
            },
        ),
        (
            br#"{"type":"Polygon","coordinates":[[[0,0],[1,0],[1,1]]]}"#,
            FaultKind::NotClosed,
            RoundOptions {
                unclosed: Fix::No,
                ..fixing.clone()
            },
        ),
        (
            br#"{"type":"LineString","coordinates":[[0,0],[1,0],[1,1],[1,0]]}"#,
            FaultKind::Revisit,
            RoundOptions {
                folded: Fix::No,
                ..fixing.clone()
            },
        ),
        (
            br#"{"type":"GeometryCollection","geometries":[]}"#,
            FaultKind::UnknownType,
            RoundOptions {
                collections: Fix::No,
                ..fixing.clone()
            },
        ),
        (
            br#"{"type":"LineString","coordinates":[[0,0],[0.1,0]]}"#,
            FaultKind::TooShort,
            RoundOptions {
                collapsed: Collapsed::Refuse,
                ..fixing.clone()
            },
        ),
    ];
    for (text, kind, options) in sets {
        assert_eq!(fault(round(&[("a", text)], &options)).kind, kind);
        round(&[("a", text)], &fixing).unwrap();
    }
}

#[test]
fn rounding_has_more_options() {
    let count = |text: &[u8], options: &RoundOptions| {
        let features = round_features(&[("a", text)], options).unwrap();
        features.features().count()
    };
    let short = br#"{"type":"LineString","coordinates":[[0,0],[0.1,0]]}"#;
    let dropping = RoundOptions {
        collapsed: Collapsed::Drop,
        ..whole_steps()
    };
    assert_eq!(count(short, &whole_steps()), 1);
    assert_eq!(count(short, &dropping), 0);
    let lines =
        b"{\"type\":\"Point\",\"coordinates\":[1,2]}\n{\"type\":\"Point\",\"coordinates\":[3,4]}\n";
    let sequences = RoundOptions {
        sequences: true,
        ..whole_steps()
    };
    assert_eq!(count(lines, &sequences), 2);
    assert_eq!(
        fault(round(&[("a", lines)], &whole_steps())).kind,
        FaultKind::NotJson
    );
    let turned = RoundOptions {
        rewind: Rewind::D3,
        ..whole_steps()
    };
    let ring = round_features(&[("a", LEFT)], &turned).unwrap();
    assert!(
        shown(&ring).contains("[[[0,0],[0,1],[1,1],[1,0],[0,0]]]"),
        "{ring:?}"
    );
    let (one, near) = (
        br#"{"type":"LineString","coordinates":[[0,0],[100,0]]}"#,
        br#"{"type":"LineString","coordinates":[[1,0],[100,50]]}"#,
    );
    let snapped = |snap| {
        let options = RoundOptions {
            snap,
            ..whole_steps()
        };
        round(&[("a", one), ("b", near)], &options)
    };
    let start = |snap, start: &str| {
        let layer = snapped(snap).unwrap().layer("b").unwrap();
        assert!(shown(&layer).contains(start), "{layer:?}");
    };
    start(0, r#""coordinates":[[1,0],[100,50]]"#);
    start(1, r#""coordinates":[[0,0],[100,50]]"#);
    assert_eq!(snapped(11), Err(Error::Usage));
}

#[test]
fn all_faults_are_listed() {
    let points = br#"{"type":"Point","coordinates":[0.5,1.5]}"#;
    assert_eq!(
        shown(faults(points, Some(Grid::WHOLE)).unwrap()),
        concat!(
            r#"[{"column":32,"line":1,"name":"NotWhole","number":5,"path":"$/coordinates/0"},"#,
            "\n",
            r#"{"column":36,"line":1,"name":"NotWhole","number":5,"path":"$/coordinates/1"}]"#
        )
    );
    assert_eq!(faults(SHARED_EDGE.as_bytes(), None).unwrap(), b"[]");
    let grid = Grid {
        scale_y: 0,
        ..Grid::WHOLE
    };
    assert_eq!(faults(b"{}", Some(grid)), Err(Error::Usage));
}

#[test]
fn differences_are_listed() {
    let old = build(Grid::WHOLE, &[("a", LEFT)]).unwrap();
    let lines = diff(&old, &squares(), None, None, Form::Lines).unwrap();
    assert_eq!(
        shown(lines),
        "+ \"a\" null {}\n1 added, 0 removed, 0 changed\n"
    );
    assert_eq!(
        shown(diff(&old, &old, Some("a"), Some("name"), Form::Json).unwrap()),
        r#"{"added":0,"changed":0,"differences":[],"layers":{"added":[],"removed":[]},"removed":0}"#
    );
    let no_layer = fault(diff(&old, &old, Some("q"), None, Form::Json));
    assert_eq!(no_layer.kind, FaultKind::NoLayer);
    assert_eq!(fault(diff(&old, b"", None, None, Form::Json)).place, 1);
}

#[test]
fn a_path_longer_than_the_room_is_whole() {
    let name = "n".repeat(5000);
    let text = format!(
        r#"{{"type":"Topology","transform":{{"scale":[1,1],"translate":[0,0]}},"arcs":[],"objects":{{"{name}":1}}}}"#
    );
    assert_eq!(
        fault(check(text.as_bytes())).path,
        format!("$/objects/{name}")
    );
}

#[test]
fn a_room_that_is_too_small_is_made_larger() {
    let point = br#"{"type":"Point","coordinates":[1,2]}"#;
    let names: Vec<String> = (0..1000).map(|it| it.to_string()).collect();
    let sources: Vec<(&str, &[u8])> = names.iter().map(|it| (it.as_str(), &point[..])).collect();
    let text = build(Grid::WHOLE, &sources).unwrap();
    let lengths = names.iter().map(|it| it.len() + point.len());
    assert!(text.len() > lengths.sum::<usize>() + 1024);
    assert_eq!(merge(&[&text]).unwrap(), text);
}

#[test]
fn threads_have_the_same_answers() {
    let run = || {
        (0..100).all(|_| {
            build(Grid::WHOLE, &[("a", LEFT), ("a", RIGHT)]).is_ok_and(|it| it == squares())
        })
    };
    let threads: Vec<_> = (0..4).map(|_| std::thread::spawn(run)).collect();
    assert!(threads.into_iter().all(|it| it.join().unwrap()));
}
