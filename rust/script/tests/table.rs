//! The table of records: what a row names is there.

use script::names::STATUSES;
use script::table::SHAPES;

#[test]
fn phrases_name_arguments() {
    for shape in SHAPES {
        for part in shape.says.iter().flat_map(|phrase| phrase.split('{').skip(1)) {
            let name = part.split('}').next().unwrap_or("");
            let known = shape.fields.iter().any(|field| field.name == name);
            assert!(known || name == "bytes" && shape.bytes.is_some(), "{}: {name}", shape.name);
        }
    }
}

#[test]
fn statuses_have_names_and_names_are_not_shared() {
    for (place, shape) in SHAPES.iter().enumerate() {
        for refusal in shape.refusals {
            assert!(
                STATUSES.iter().any(|(status, _)| *status == refusal.status),
                "{}: {}",
                shape.name,
                refusal.status
            );
        }
        assert!(SHAPES[..place].iter().all(|other| other.name != shape.name), "{}", shape.name);
        for (at, field) in shape.fields.iter().enumerate() {
            assert!((1..=8).contains(&field.size), "{}: {}", shape.name, field.name);
            assert!(
                shape.fields[..at].iter().all(|other| other.name != field.name),
                "{}: {}",
                shape.name,
                field.name
            );
        }
    }
}
