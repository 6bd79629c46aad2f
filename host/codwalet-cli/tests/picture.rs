//! Pictures of a footprint: what they show, and how the page of an SVG is laid out.

mod page;

use codwalet::{GeoBox, Licence};
use codwalet_cli::picture::{svg, terminal};
use page::cases::{Case, all, crowded, draw, not_away, over, plain, some_people};
use page::{Element, Frame, Page, Stroke};

/// One licence over longitudes 20 to 40.
fn one_licence() -> [Licence; 1] {
    [Licence::within(1, GeoBox { south: -90, north: 90, west: 20, east: 40 })]
}

/// One row with 5, 0, 4, 3 and 8 people.
const ONE_ROW: &str = "7,1,0,0,5,0,0\n7,1,0,1,0,0,10\n7,1,0,2,4,0,20\n7,1,0,3,3,0,30\n7,1,0,4,8,0,40\n";

#[test]
fn a_terminal_shows_each_mark() {
    let lines = [
        "+-----+",
        "|..+-.|",
        "+-----+",
        "+       1 cell            4 people  last ring, in the footprint",
        "-       1 cell            3 people  last ring, left out",
        ".       3 cells          13 people  not in the footprint",
    ];
    assert_eq!(terminal(&draw(ONE_ROW, &one_licence())), lines);
}

/// The 7 people of columns 2 and 3 under 1 to 50 MHz: the ring starts from both cells, whatever the width, and goes with the mask.
#[test]
fn the_last_ring_of_a_narrow_licence_goes_with_the_mask() {
    for mhz in 1..=50 {
        let drawing = draw(ONE_ROW, &one_licence().map(|licence| licence.with_width(mhz)));
        assert_eq!(
            (drawing.share.0, drawing.covered.as_slice()),
            (7 * u64::from(mhz), &[false, false, true, true, false][..])
        );
        assert_eq!(drawing.last_ring.as_ref(), Some(&drawing.covered), "{mhz} MHz");
        assert!(drawing.carries() >= drawing.share, "{mhz} MHz");
    }
}

#[test]
fn a_mask_that_no_ring_leads_to_is_drawn_alone() {
    let mut drawing = draw(ONE_ROW, &one_licence());
    drawing.last_ring = None;
    let said = "The last ring is not drawn: it does not go with the mask.";
    assert_eq!(terminal(&drawing).last().map(String::as_str), Some(said));
    assert!(Page::read(&svg(&drawing)).text(said).is_some());
}

/// Whether a picture has a box with this path.
fn has_box(picture: &str, path: &str) -> bool {
    picture.contains(&format!("<path d=\"{path}\" fill=\"none\" stroke=\"#9d174d\""))
}

#[test]
fn boxes_are_placed_by_coordinates() {
    // Longitude 20 is in the middle of column 2, and 40 in the middle of column 4; squares have sides of 40.
    let second_row = "7,1,1,0,9,-10,0\n7,1,1,2,9,-10,20\n7,1,1,3,9,-10,30\n";
    let picture = svg(&draw(&format!("{ONE_ROW}{second_row}"), &one_licence()));
    assert!(has_box(&picture, "M100.0 0.0H180.0V80.0H100.0z"), "{picture}");
}

#[test]
fn boxes_that_cannot_be_placed_are_outlines() {
    // The latitudes don't vary.
    let outline = "M80 0h80M80 40h80M80 0v40M160 0v40";
    assert!(has_box(&svg(&draw(ONE_ROW, &one_licence())), outline));
    // Longitudes go east in one row and west in the other, so no column has a longitude.
    let crossed = "7,1,0,0,5,10,20\n7,1,0,1,5,10,50\n7,1,1,0,5,0,50\n7,1,1,1,5,0,20\n";
    let outline = "M0 0h40M0 40h80M40 80h40M0 0v40M40 0v80M80 40v40";
    assert!(has_box(&svg(&draw(crossed, &one_licence())), outline));
}

#[test]
fn no_two_texts_overlap() {
    for case in all() {
        let page = case.page();
        let texts = page.texts();
        for (index, (words, frame)) in texts.iter().enumerate() {
            let over = texts[..index].iter().find(|(_, other)| frame.shared_area(other) > 0.0);
            assert!(over.is_none(), "{}: {words} overlaps {over:?}", case.name);
        }
    }
}

#[test]
fn everything_lies_within_the_page() {
    for case in all() {
        let page = case.page();
        for (element, frame) in page.drawn() {
            assert!(frame.is_within(&page.edges), "{}: {} {:?} {frame:?}", case.name, element.name, element.words);
        }
    }
}

/// Whether an element stands on the grid.
fn is_on_grid(element: &Element) -> bool {
    element.attributes.contains_key("transform")
}

#[test]
fn each_licence_is_listed_once() {
    for case in all() {
        let page = case.page();
        for words in case.listed() {
            let listed = page.elements.iter().filter(|element| element.words == words && !is_on_grid(element));
            assert_eq!(listed.count(), 1, "{}: {words}", case.name);
        }
    }
}

/// The bold numbers on the grid or beside it, ascending.
fn numbers(page: &Page, on_grid: bool) -> Vec<usize> {
    let is_bold = |element: &&Element| element.attributes.contains_key("font-weight") && is_on_grid(element) == on_grid;
    let bold = page.elements.iter().filter(is_bold);
    let mut numbers: Vec<usize> = bold.filter_map(|element| element.words.parse().ok()).collect();
    numbers.sort();
    numbers
}

#[test]
fn crowded_boxes_are_numbered_on_the_grid_and_in_the_list() {
    for case in crowded() {
        let page = case.page();
        let mut listed = numbers(&page, false);
        assert_eq!(listed.len(), case.licences.len(), "{}", case.name);
        // Boxes over the same cells have one number.
        listed.dedup();
        assert_eq!(numbers(&page, true), listed, "{}", case.name);
        assert!(listed.len() > 30 && listed.iter().copied().eq(1..=listed.len()), "{}: {listed:?}", case.name);
    }
}

/// The elements on the grid with a name and an attribute.
fn on_grid_with<'p>(page: &'p Page, name: &str, attribute: &str) -> Vec<(&'p Element, Frame)> {
    let is_one = |element: &Element| element.name == name && element.attributes.contains_key(attribute);
    page.drawn().filter(|(element, _)| is_on_grid(element) && is_one(element)).collect()
}

#[test]
fn labels_leave_boxes_to_be_seen() {
    for case in all() {
        let page = case.page();
        let labels = on_grid_with(&page, "text", "font-weight");
        for (_, drawn) in on_grid_with(&page, "path", "stroke-dasharray") {
            let is_hidden = |&&(_, label): &&(&Element, Frame)| label.shared_area(&drawn) > 0.4 * drawn.area();
            let hidden_by = labels.iter().find(is_hidden).map(|(label, _)| &label.words);
            assert_eq!(hidden_by, None, "{}: {drawn:?}", case.name);
        }
    }
}

/// Whether a label stands at a box: on a line of it, or no further than the room between lines and labels from one.
fn stands_at(label: &Frame, drawn: &Element) -> bool {
    let near = label.wider(3.1);
    drawn.strokes().iter().any(|stroke| near.shared_area(&stroke.frame().wider(0.1)) > 0.0)
}

/// Whether a line leads from a box to a label.
fn is_tied(page: &Page, label: &Frame, drawn: &Element) -> bool {
    let is_tie = |element: &&Element| element.attributes.get("stroke-width").is_some_and(|width| width == "0.75");
    let (x, y) = label.middle();
    let ends_at_label = |tie: &Stroke| (tie.to.0 - x).abs() < 0.2 && (tie.to.1 - y).abs() < 0.2;
    let starts_at_box = |tie: &Stroke| drawn.strokes().iter().any(|stroke| stroke.frame().wider(0.2).holds(tie.from));
    let mut ties = page.elements.iter().filter(is_tie).flat_map(Element::strokes);
    ties.any(|tie| ends_at_label(&tie) && starts_at_box(&tie))
}

#[test]
fn labels_stand_at_their_boxes_or_are_tied_to_them() {
    for case in all() {
        let page = case.page();
        let (labels, boxes) = (on_grid_with(&page, "rect", "rx"), on_grid_with(&page, "path", "stroke-dasharray"));
        assert_eq!(labels.len(), boxes.len(), "{}", case.name);
        for (index, ((_, label), (drawn, _))) in labels.iter().zip(&boxes).enumerate() {
            assert!(stands_at(label, drawn) || is_tied(&page, label, drawn), "{}: label {index}", case.name);
        }
    }
}

/// Four cells that are far apart, and their points.
const FOUR_CELLS: &str = "7,3,0,0,131,1000000,0\n7,3,0,1,44,1000000,1000000\n7,3,1,0,9999,0,0\n7,3,1,1,6,0,1000000\n";
const FOUR_POINTS: [(i32, i32); 4] = [(1_000_000, 0), (1_000_000, 1_000_000), (0, 0), (0, 1_000_000)];

/// The places of the four cells whose middles a box holds. Squares have sides of 40.
fn held(page: &Page, drawn: &Frame) -> Vec<usize> {
    let grid = grid_frame(page);
    let middle = |place: usize| (grid.left + (20 + place % 2 * 40) as f64, grid.top + (20 + place / 2 * 40) as f64);
    (0..4).filter(|&place| drawn.holds(middle(place))).collect()
}

#[test]
fn the_smallest_boxes_are_seen_and_labelled_with_their_call_signs() {
    // How far a box goes south, north, west and east from a cell's point.
    let reaches = [(4, 4, 4, 4), (0, 1, 0, 1), (9_000, 300_000, 4, 4), (4, 4, 900_000, 9_000), (4, 4, 9_000, 990_000)];
    for ((south, north, west, east), call_sign) in reaches.iter().flat_map(|reach| [(reach, 77), (reach, u32::MAX)]) {
        for (place, (latitude, longitude)) in FOUR_POINTS.into_iter().enumerate() {
            let (south, north) = (latitude - south, latitude + north);
            let edges = GeoBox { south, north, west: longitude - west, east: longitude + east };
            let page = Page::read(&svg(&draw(FOUR_CELLS, &[Licence::within(call_sign, edges)])));
            let (labels, boxes) = (on_grid_with(&page, "rect", "rx"), on_grid_with(&page, "path", "stroke-dasharray"));
            let (drawn, frame) = boxes[0];
            assert!(frame.width() >= 6.0 && frame.height() >= 6.0, "{edges:?}: {frame:?}");
            assert_eq!(held(&page, &frame), [place], "{edges:?}: {frame:?}");
            assert_eq!(numbers(&page, true), [call_sign as usize], "{edges:?}");
            assert!(stands_at(&labels[0].1, drawn), "{edges:?}: {labels:?}");
        }
    }
}

#[test]
fn boxes_over_the_same_cells_are_drawn_as_one() {
    let case = plain().into_iter().find(|case| case.name == "the same box").expect("there is such a case");
    let page = case.page();
    assert_eq!(on_grid_with(&page, "path", "stroke-dasharray").len(), 1);
    assert_eq!((numbers(&page, true), numbers(&page, false)), (vec![1], vec![1; case.licences.len()]));
    let said = "Boxes of licences, by number (those over the same cells are drawn as one)";
    assert!(page.text(said).is_some());
}

#[test]
fn title_and_description_come_first() {
    for case in plain() {
        let page = case.page();
        let [root, title, description] = [0, 1, 2].map(|index| &page.elements[index]);
        assert_eq!([&root.name, &title.name, &description.name], ["svg", "title", "desc"]);
        assert_eq!((title.words.as_str(), root.attributes["role"].as_str()), ("Footprint in area 212", "img"));
        let ids = format!("{} {}", title.attributes["id"], description.attributes["id"]);
        assert_eq!(root.attributes["aria-labelledby"], ids);
        for said in ["The share is ", " weighted MHz-pops.", "The footprint carries ", " cells."] {
            assert!(description.words.contains(said), "{}: {}", case.name, description.words);
        }
    }
}

/// Where the grid stands: the outline of its cells.
fn grid_frame(page: &Page) -> Frame {
    let is_outline = |element: &Element| element.attributes.get("stroke").is_some_and(|colour| colour == "#8b95a3");
    let outline = page.drawn().find(|(element, _)| is_outline(element));
    outline.map(|(_, frame)| frame).expect("the cells have an outline")
}

#[test]
fn grids_keep_to_their_size_and_have_a_scale() {
    // Rows, columns, the side of a square, and the cells of the scale.
    let cases = [(128, 4, 5, 20), (4, 128, 5, 20), (128, 128, 5, 20), (60, 10, 12, 10), (30, 30, 24, 5), (3, 4, 40, 1)];
    for (rows, columns, side, cells) in cases {
        let licences = vec![over(1, 0..2, 0..2)];
        let (people, away) = (some_people, not_away);
        let page = Case { name: "", rows, columns, weight: 1, people, away, licences }.page();
        let grid = grid_frame(&page);
        let size = ((columns * side) as f64, (rows * side) as f64);
        assert_eq!((grid.width(), grid.height()), size, "{rows} x {columns}");
        let words = page.text(&format!("{cells} cell{}", if cells == 1 { "" } else { "s" })).expect("there is a scale");
        let bar = (cells * side) as f64;
        let is_bar = |frame: Frame| {
            frame.width() == bar && (words.left - 8.0, words.bottom - 0.5) == (frame.right, frame.bottom)
        };
        assert!(page.drawn().any(|(_, frame)| is_bar(frame)), "{rows} x {columns}");
    }
}

#[test]
fn north_is_shown_where_latitudes_fall() {
    let over_first_column = [Licence::within(1, GeoBox { south: -90, north: 90, west: -5, east: 5 })];
    // The latitudes of the two rows, and whether there is an arrow.
    for (top, bottom, is_shown) in [(10, 0, true), (0, 10, false), (0, 0, false)] {
        let lines = format!("7,1,0,0,5,{top},0\n7,1,0,1,9,{top},10\n7,1,1,0,5,{bottom},0\n7,1,1,1,9,{bottom},10\n");
        let page = Page::read(&svg(&draw(&lines, &over_first_column)));
        assert_eq!(page.text("N").is_some(), is_shown, "{top} above {bottom}");
    }
    assert!(Page::read(&svg(&draw(ONE_ROW, &one_licence()))).text("N").is_none(), "one row tells nothing");
}
