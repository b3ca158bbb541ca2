//! What the measurements of `bench` compare the commands of topotool with, in plain Rust.
//!
//!     plain build --grid SX,SY,TX,TY NAME=FILE...
//!     plain scan --grid SX,SY,TX,TY NAME=FILE...
//!
//! print what `topotool build` prints: `build` reads the files as values of `serde_json`, and `scan` by
//! a parser of its own.
//!
//!     plain check|merge|mesh FILE
//!     plain feature|neighbors --layer NAME FILE
//!
//! print what these commands print of a topology that is read as a value of `serde_json`. Its arcs and
//! the order of its features are taken as they stand, so where they aren't canonical the answers aren't
//! those of the commands.
//!
//! The files have to be sound; the program panics at many faults and doesn't look for the others.

mod arcs;
mod map;
mod queries;
mod reading;
mod scanning;
mod standing;
mod writing;

use arcs::Topology;
use map::{Axis, Grid, Map};
use std::io::Write;
use std::{env, fs, io, process};

const USAGE: &str = "plain build|scan --grid SX,SY,TX,TY NAME=FILE...\n\
    plain check|merge|mesh FILE\nplain feature|neighbors --layer NAME FILE";

fn grid_of(word: &str) -> Grid {
    let number = |text: &str| text.parse::<i64>().expect(USAGE);
    let numbers: Vec<i64> = word.split(',').map(number).collect();
    match numbers[..] {
        [sx, sy, tx, ty] => Grid {
            x: Axis {
                scale: sx,
                translation: tx,
            },
            y: Axis {
                scale: sy,
                translation: ty,
            },
        },
        _ => panic!("{}", USAGE),
    }
}

/// The topology of GeoJSON files, which are scanned or read as values.
fn build(is_scanned: bool, grid: &str, words: &[String]) -> io::Result<Vec<u8>> {
    let mut map = Map::new(grid_of(grid));
    for word in words {
        let (name, file) = word.split_once('=').expect(USAGE);
        let bytes = fs::read(file)?;
        if is_scanned {
            scanning::scan(&mut map, name, &bytes);
        } else {
            let root = serde_json::from_slice(&bytes)?;
            drop(bytes);
            reading::read(&mut map, name, root);
        }
    }
    map.sort_features();
    let topology = Topology::of(&mut map);
    Ok(writing::text_of(&map, &topology))
}

fn layer_answer(command: &str, map: &Map, topology: &Topology, layer: &str) -> Vec<u8> {
    let features = &map.layers[layer];
    match command {
        "feature" => writing::layer_text(map, topology, features),
        "neighbors" => writing::lists_text(&topology.neighbors(map, features)),
        _ => panic!("{}", USAGE),
    }
}

fn answer(command: &str, words: &[String]) -> io::Result<Vec<u8>> {
    let bytes = fs::read(words.last().expect(USAGE))?;
    let (mut map, topology) = standing::read(serde_json::from_slice(&bytes)?);
    Ok(match (command, words) {
        ("check", [_]) if writing::text_of(&map, &topology) == bytes => b"canonical\n".to_vec(),
        ("check", [_]) => {
            println!("not canonical");
            process::exit(1)
        }
        ("merge", [_]) => writing::text_of(&map, &topology),
        ("mesh", [_]) => {
            let lines = topology.mesh(&mut map);
            writing::mesh_text(&map, &lines)
        }
        (_, [_, layer, _]) => layer_answer(command, &map, &topology, layer),
        _ => panic!("{}", USAGE),
    })
}

fn main() -> io::Result<()> {
    let words: Vec<String> = env::args().skip(1).collect();
    let text = match words
        .split_first()
        .map(|(command, others)| (command.as_str(), others))
    {
        Some((command @ ("build" | "scan"), [_, grid, files @ ..])) => {
            build(command == "scan", grid, files)?
        }
        Some((command, others)) => answer(command, others)?,
        None => panic!("{}", USAGE),
    };
    io::stdout().lock().write_all(&text)
}
