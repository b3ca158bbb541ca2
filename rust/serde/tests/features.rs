//! Features of each kind as values.
use noshinka::{build, quality, Grid, QualityOptions};
use noshinka_serde::{Feature, Geometry, Id, LayerIds, Near, Quality, TypedFeatures};
use serde::Deserialize;

#[derive(Deserialize, PartialEq, Debug)]
struct Named<'a> {
    name: &'a str,
}

fn geometry(text: &str) -> Geometry {
    let map = build(Grid::WHOLE, &[("a", text.as_bytes())]).unwrap();
    let layer = map.layer("a").unwrap();
    let features: Vec<Feature<serde_json::Value>> =
        layer.features_as().collect::<Result<_, _>>().unwrap();
    let [feature] = &features[..] else {
        panic!("{features:?}")
    };
    feature.geometry.clone().unwrap()
}

#[test]
fn geometries_are_read() {
    let square = vec![[0, 0], [1, 0], [1, 1], [0, 0]];
    assert_eq!(
        geometry(r#"{"type":"MultiPoint","coordinates":[[1,2],[3,4]]}"#),
        Geometry::MultiPoint(vec![[1, 2], [3, 4]])
    );
    assert_eq!(
        geometry(r#"{"type":"LineString","coordinates":[[1,2],[3,4]]}"#),
        Geometry::LineString(vec![[1, 2], [3, 4]])
    );
    assert_eq!(
        geometry(r#"{"type":"MultiLineString","coordinates":[[[1,2],[3,4]]]}"#),
        Geometry::MultiLineString(vec![vec![[1, 2], [3, 4]]])
    );
    assert_eq!(
        geometry(r#"{"type":"Polygon","coordinates":[[[0,0],[1,0],[1,1],[0,0]]]}"#),
        Geometry::Polygon(vec![square.clone()])
    );
    assert_eq!(
        geometry(r#"{"type":"MultiPolygon","coordinates":[[[[0,0],[1,0],[1,1],[0,0]]]]}"#),
        Geometry::MultiPolygon(vec![vec![square]])
    );
}

#[test]
fn properties_are_of_your_own_type() {
    let features = br#"{"type":"FeatureCollection","features":[
        {"type":"Feature","id":"x","properties":{"name":"a}"},"geometry":null},
        {"type":"Feature","id":-3,"properties":{"name":"b"},"geometry":null},
        {"type":"Feature","properties":{"name":"c"},"geometry":null}]}"#;
    let map = build(Grid::WHOLE, &[("a", features)]).unwrap();
    let layer = map.layer("a").unwrap();
    let read: Vec<Feature<Named>> = layer.features_as().collect::<Result<_, _>>().unwrap();
    let ids: Vec<_> = read
        .iter()
        .map(|it| (it.id.clone(), it.properties.name))
        .collect();
    assert_eq!(
        ids,
        [
            (None, "c"),
            (Some(Id::Number(-3)), "b"),
            (Some(Id::Text("x".into())), "a}"),
        ]
    );
}

#[test]
fn a_feature_of_another_type_is_an_error_and_the_next_one_comes() {
    let features = br#"{"type":"FeatureCollection","features":[
        {"type":"Feature","id":1,"properties":{},"geometry":null},
        {"type":"Feature","id":2,"properties":{"name":"b"},"geometry":null}]}"#;
    let map = build(Grid::WHOLE, &[("a", features)]).unwrap();
    let layer = map.layer("a").unwrap();
    let read: Vec<_> = layer
        .features_as::<Feature<Named>>()
        .map(|it| it.is_ok())
        .collect();
    assert_eq!(read, [false, true]);
}

#[test]
fn one_by_one_they_are_the_features_of_the_whole_text() {
    const ODD: [&str; 8] = ["{", "}", "\\\"", "[", "]", "\\\\", ",", "\\u0041"];
    let property = |it: usize| {
        let text: String = (0..5)
            .map(|at| ODD[(it * 31 + at * 7) / 3 % ODD.len()])
            .collect();
        format!(r#""{text}":[{{"{text}":"{text}"}},{{}},[]]"#)
    };
    let features: Vec<String> = (0..200)
        .map(|it| {
            let properties = property(it);
            format!(
                r#"{{"type":"Feature","id":{it},"properties":{{{properties}}},"geometry":null}}"#
            )
        })
        .collect();
    let text = format!(
        r#"{{"type":"FeatureCollection","features":[{}]}}"#,
        features.join(",")
    );
    let map = build(Grid::WHOLE, &[("a", text.as_bytes())]).unwrap();
    let layer = map.layer("a").unwrap();
    let whole: serde_json::Value = serde_json::from_slice(layer.text()).unwrap();
    let one_by_one: Vec<serde_json::Value> = layer.features_as().collect::<Result<_, _>>().unwrap();
    assert_eq!(one_by_one.len(), 200);
    assert_eq!(Some(&one_by_one), whole["features"].as_array());
}

#[test]
fn quality_is_read() {
    let points = br#"{"type":"FeatureCollection","features":[
        {"type":"Feature","id":1,"geometry":{"type":"Point","coordinates":[0,0]}},
        {"type":"Feature","id":1,"geometry":{"type":"Point","coordinates":[2,-1]}},
        {"type":"Feature","id":2,"geometry":{"type":"Point","coordinates":[9,9]}}]}"#;
    let map = build(Grid::WHOLE, &[("a", points)]).unwrap();
    let found = |ids, near| {
        let options = QualityOptions {
            ids,
            near,
            ..Default::default()
        };
        Quality::of_answer(&quality(&map, &options).unwrap()).unwrap()
    };
    let none = Quality {
        canonical: true,
        ids: None,
        near: None,
    };
    assert_eq!(found(false, 0), none);
    assert!(none.is_good());
    let twice = LayerIds {
        layer: "a".to_string(),
        missing: vec![],
        repeated: vec![0, 1],
    };
    let pair = Near {
        count: 1,
        pairs: vec![[[0, 0], [2, -1]]],
    };
    assert_eq!(
        found(true, 2),
        Quality {
            ids: Some(vec![twice]),
            near: Some(pair),
            ..none
        }
    );
    assert!(!found(true, 1).is_good() && !found(false, 2).is_good());
    assert!(found(false, 1).is_good());
    assert!(Quality::of_answer(b"{}").is_err());
}
